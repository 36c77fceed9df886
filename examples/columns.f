C     The sums of the columns of a matrix, and of all its elements.
      PARAMETER (N=4,M=3)
      INTEGER A(N,M),SUM(M),TOTAL
      DO 10 J=1,M
      DO 10 I=1,N
   10 A(I,J)=10*I+J
      DO 30 J=1,M
      DO 20 I=1,N
   20 SUM(J)=SUM(J)+A(I,J)
      TOTAL=TOTAL+SUM(J)
   30 PRINT *,'COLUMN',J,SUM(J)
      PRINT *,'ALL',TOTAL
      END
