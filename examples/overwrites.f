C     An output dependence: what an iteration stores last the next one overwrites first.
      INTEGER A(9)
      DO 10 I=1,8
      A(I)=I
   10 A(I+1)=-I
      PRINT *,A(1),A(8),A(9)
      END
