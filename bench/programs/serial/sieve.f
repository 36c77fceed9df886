C     The sieve of Eratosthenes. No step is a constant.
      PROGRAM SIEVE
      INTEGER A(100000),C
      N=1
      DO 10 I=1,100000,N
   10 A(I)=1
      DO 30 I=2,316,N
      IF (A(I).EQ.1) THEN
      DO 20 J=I*I,100000,I
   20 A(J)=0
      END IF
   30 CONTINUE
      C=0
      DO 40 I=2,100000,N
   40 C=C+A(I)
      PRINT *,C
      END
