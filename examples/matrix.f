C     The product of two 3 by 3 matrices.
      INTEGER A(3,3),B(3,3),C(3,3)
      DO 10 J=1,3
      DO 10 I=1,3
      A(I,J)=I+J
   10 B(I,J)=I-J
      DO 20 J=1,3
      DO 20 I=1,3
      DO 20 K=1,3
   20 C(I,J)=C(I,J)+A(I,K)*B(K,J)
      DO 30 I=1,3
   30 PRINT *,C(I,1),C(I,2),C(I,3)
      END
