C     A loop of two trips at once, for turns.schedule, which has its run turn by turn.
      DO 10 I=1,2
   10 PRINT *,I
      END
