C     Iterations that overlap: each needs an element of the one before it, and then works alone.
      INTEGER A(0:12),B(12)
      DO 20 I=1,12
      A(I)=A(I-1)+I
      DO 10 J=1,6
   10 B(I)=B(I)+MOD(I*J,7)
   20 CONTINUE
      PRINT *,A(12),B(1),B(12)
      END
