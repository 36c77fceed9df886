C     The sieve of Eratosthenes.
      PROGRAM SIEVE
      INTEGER A(200000),C
      DO 10 I=1,200000
   10 A(I)=1
      DO 30 I=2,447
      IF (A(I).EQ.1) THEN
      DO 20 J=I*I,200000,I
   20 A(J)=0
      END IF
   30 CONTINUE
      C=0
      DO 40 I=2,200000
   40 C=C+A(I)
      PRINT *,C
      END
