C     Livermore kernel 5 in integers: elimination in tridiagonal systems side by side.
      PROGRAM TRIDIA
      INTEGER X(400,300),Y(400),Z(400),T
      DO 10 I=1,400
      Y(I)=MOD(I*7919,1009)
   10 Z(I)=MOD(I*104729,997)+1
      DO 20 J=1,300
   20 X(1,J)=J
      DO 40 J=1,300
      DO 30 I=2,400
   30 X(I,J)=MOD(Z(I)*ABS(Y(I)-X(I-1,J)),1000003)
   40 CONTINUE
      T=0
      DO 50 J=1,300
   50 T=MOD(T*31+X(400,J),1000003)
      PRINT *,T
      END
