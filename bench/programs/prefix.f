C     Prefix sums of the rows of a table.
      PROGRAM PREFIX
      INTEGER A(400,600),T
      DO 10 J=1,600
      DO 10 I=1,400
   10 A(I,J)=MOD(I*7919+J*104729,1009)
      DO 30 J=2,600
      DO 20 I=1,400
   20 A(I,J)=A(I,J)+A(I,J-1)
   30 CONTINUE
      T=0
      DO 40 I=1,400
   40 T=MOD(T*31+A(I,600),1000003)
      PRINT *,T
      END
