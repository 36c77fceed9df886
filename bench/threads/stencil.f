      INTEGER A(0:601,0:601),B(0:601,0:601),S,T
      DO 10 J=0,601
      DO 10 I=0,601
   10 A(I,J)=MOD(I*7919+J*104729,1000)*1000
      DO 30 J=1,600
      DO 20 I=1,600
      S=4*A(I,J)+A(I-1,J)+A(I+1,J)+A(I,J-1)+A(I,J+1)
      IF (S.GT.4000000) S=S-MOD(S,17)*3
   20 B(I,J)=MOD(S*S+7,1000003)/8
   30 CONTINUE
      T=0
      DO 50 J=1,600
   50 T=MOD(T*31+B(J,J)+B(1,J)*3+B(J,600),1000003)
      PRINT *,T
      END
