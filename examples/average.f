C     Reads how many numbers follow, and the numbers, and prints their sum and the greatest of them.
      INTEGER SUM,A(100)
      READ *,N
      DO 10 I=1,N
      READ *,A(I)
      SUM=SUM+A(I)
   10 CONTINUE
      MAXIM=A(1)
      DO 20 I=2,N
   20 MAXIM=MAX(MAXIM,A(I))
      PRINT *,'NUMBERS',N,' SUM',SUM,' GREATEST',MAXIM
      WRITE(*,*) 'AVERAGE, CUT OFF',SUM/N
      END
