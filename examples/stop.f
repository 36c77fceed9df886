C     Stops at the first number whose square is above 50.
      DO 10 I=1,100
      PRINT *,I,I*I
      IF (I*I.GT.50) STOP
   10 CONTINUE
      END
