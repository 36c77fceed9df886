C     Integers, each read from a record of its own, and printed.
      PROGRAM COPY
      INTEGER A(1000000),I
      DO 10 I=1,1000000
   10 READ *,A(I)
      DO 20 I=1,1000000
   20 PRINT *,A(I)
      END
