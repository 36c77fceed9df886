C     The second trip faults, and by holds.schedule the third has printed before.
      INTEGER A(0:4)
      DO 10 I=1,4
      A(I)=A(I-1)+1
      PRINT *,A(I)
   10 K=10/(2-I)
      END
