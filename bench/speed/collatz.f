C     The longest Collatz sequence.
      PROGRAM COLLAT
      INTEGER N,K,L,I,BEST,AT
      BEST=0
      AT=0
      DO 30 I=1,250000
      N=I
      L=0
      DO 20 K=1,400
      IF (N.EQ.1) THEN
      L=L
      ELSE
      L=L+1
      IF (MOD(N,2).EQ.0) THEN
      N=N/2
      ELSE
      N=3*N+1
      END IF
      END IF
   20 CONTINUE
      IF (L.GT.BEST) THEN
      BEST=L
      AT=I
      END IF
   30 CONTINUE
      PRINT *,BEST,AT
      END
