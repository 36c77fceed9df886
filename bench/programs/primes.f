C     The least divisor of each number, by trial.
      PROGRAM PRIMES
      INTEGER D(2:6000),C
      DO 20 N=2,6000
      D(N)=N
      DO 10 K=77,2,-1
      IF (K.LT.N.AND.MOD(N,K).EQ.0) D(N)=K
   10 CONTINUE
   20 CONTINUE
      C=0
      DO 30 N=2,6000
      IF (D(N).EQ.N) C=C+1
   30 CONTINUE
      PRINT *,C
      END
