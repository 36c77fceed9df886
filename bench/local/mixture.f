C     A linear congruential generator that the DO variable is mixed into: a range of one statement.
      DO 10 I=1,40000000
   10 M=MOD(M*16807+I,2147483647)
      PRINT *,M
      END
