C     Iterations in a chain: each needs at its beginning what the one before it stores at its end.
      INTEGER A(0:12),B(12)
      DO 20 I=1,12
      B(I)=A(I-1)
      DO 10 J=1,6
   10 B(I)=B(I)+MOD(I*J,7)
      A(I)=B(I)+I
   20 CONTINUE
      PRINT *,A(12),B(1),B(12)
      END
