C     The primes up to 50: each marks its multiples, from its square on.
      PROGRAM PRIMES
      PARAMETER (N=50)
      INTEGER MARK(2:N),COUNT
      DO 20 I=2,N
      IF (MARK(I).EQ.0) THEN
      PRINT *,I
      COUNT=COUNT+1
      DO 10 J=I*I,N,I
   10 MARK(J)=1
      END IF
   20 CONTINUE
      PRINT *,'PRIMES',COUNT
      END
