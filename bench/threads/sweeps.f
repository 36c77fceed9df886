      INTEGER A(0:301,0:301),B(0:301,0:301),T,ONE
      DO 10 J=0,301
      DO 10 I=0,301
   10 A(I,J)=MOD(I*7919+J*104729,1000)*1000
      ONE=1
      DO 40 N=1,20,ONE
      DO 20 J=1,300
      DO 20 I=1,300
   20 B(I,J)=(A(I-1,J)+A(I+1,J)+A(I,J-1)+A(I,J+1))/4
      DO 30 J=1,300
      DO 30 I=1,300
   30 A(I,J)=B(I,J)
   40 CONTINUE
      T=0
      DO 50 J=1,300
   50 T=MOD(T*31+A(J,J)+A(1,J)*3+A(J,300),1000003)
      PRINT *,T
      END
