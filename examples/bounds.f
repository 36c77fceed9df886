C     The last trip leaves the array: the fault INDEX, and what was printed before stays.
      INTEGER A(5)
      DO 10 I=1,6
      A(I)=I
   10 PRINT *,A(I)
      END
