C     Nests: (1,0), (0,1) and (1,1), and a wave, whose element counts the ways from the border to it.
      INTEGER A(0:8,0:6),B(0:8,0:6),C(0:8,0:6),D(0:8,0:6)
      DO 10 I=1,8
      DO 10 J=1,6
   10 A(I,J)=A(I-1,J)+1
      DO 20 I=1,8
      DO 20 J=1,6
   20 B(I,J)=B(I,J-1)+1
      DO 30 I=1,8
      DO 30 J=1,6
   30 C(I,J)=C(I-1,J-1)+1
      DO 40 I=0,8
   40 D(I,0)=1
      DO 50 J=1,6
   50 D(0,J)=1
      DO 60 I=1,8
      DO 60 J=1,6
   60 D(I,J)=D(I-1,J)+D(I,J-1)
      PRINT *,A(8,6),B(8,6),C(8,6),D(8,6)
      END
