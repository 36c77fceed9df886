C     Integer division drops the fraction: it truncates toward zero, also below zero.
      PRINT *,7/2,-7/2,7/(-2),(-7)/(-2)
      PRINT *,'FIRST DIVIDE, THEN MULTIPLY',7/2*2
      PRINT *,'FIRST MULTIPLY, THEN DIVIDE',7*2/2
      PRINT *,'THE REMAINDER OF 7/2',7-7/2*2
      END
