C     A tridiagonal recurrence.
      PROGRAM TRIDIA
      INTEGER A(10000),B(10000),C(10000),X(10000),I,R
      DO 10 I=1,10000
      A(I)=MOD(I*37,101)
      B(I)=MOD(I*53,103)
   10 C(I)=MOD(I*71,107)
      DO 30 R=1,3000
      X(1)=R
      X(2)=1
      DO 20 I=3,10000
   20 X(I)=MOD(A(I)*X(I-1)+B(I)*X(I-2)+C(I),1000003)
   30 CONTINUE
      PRINT *,X(10000)
      END
