C     Fibonacci's numbers in an array: a loop that needs the results of its last two trips.
      INTEGER F(0:90)
      F(1)=1
      DO 10 I=2,90
   10 F(I)=F(I-1)+F(I-2)
      DO 20 I=10,90,20
   20 PRINT *,I,F(I)
      END
