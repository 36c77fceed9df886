C     The sieve of Eratosthenes.
      PROGRAM SIEVE
      INTEGER A(1000000),I,J,C,R
      DO 40 R=1,10
      DO 10 I=1,1000000
   10 A(I)=1
      DO 30 I=2,1000
      IF (A(I).EQ.1) THEN
      DO 20 J=I*I,1000000,I
   20 A(J)=0
      END IF
   30 CONTINUE
   40 CONTINUE
      C=0
      DO 50 I=2,1000000
   50 C=C+A(I)
      PRINT *,C
      END
