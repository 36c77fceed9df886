C     A recurrence of distance 2: two chains of elements, one of the odd and one of the even ones.
      INTEGER A(12)
      A(1)=1
      A(2)=10
      DO 10 I=3,12
      A(I)=A(I-2)+I
   10 CONTINUE
      DO 20 I=1,12
   20 PRINT *,I,A(I)
      END
