C     A recurrence of distance 1: each element needs the one before it.
      INTEGER A(0:10)
      A(0)=1
      DO 10 I=1,10
   10 A(I)=2*A(I-1)+1
      PRINT *,'A(10) IS',A(10)
      DO 20 I=0,10,5
   20 PRINT *,I,A(I)
      END
