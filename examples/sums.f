C     Sums with names, constants and parentheses. A name is 0 until it is assigned.
      INTEGER TOTAL
      PRINT *,'TOTAL AT THE START',TOTAL
      I=1
      TOTAL=TOTAL+I
      I=I+1
      TOTAL=TOTAL+I
      I=I+1
      TOTAL=TOTAL+I
      PRINT *,'1+2+3 IS',TOTAL
      PRINT *,'THE SQUARE OF IT IS',TOTAL*TOTAL
      END
