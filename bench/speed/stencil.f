C     A stencil of five points on a grid.
      PROGRAM STENCL
      INTEGER A(0:301,0:301),B(0:301,0:301),I,J,R
      DO 10 J=0,301
      DO 10 I=0,301
   10 A(I,J)=MOD(I*7919+J*104729,1000)*1000
      DO 50 R=1,50
      DO 30 J=1,300
      DO 20 I=1,300
   20 B(I,J)=(4*A(I,J)+A(I-1,J)+A(I+1,J)+A(I,J-1)+A(I,J+1))/8
   30 CONTINUE
      DO 40 J=1,300
      DO 40 I=1,300
   40 A(I,J)=B(I,J)
   50 CONTINUE
      PRINT *,A(1,1),A(150,150),A(300,300)
      END
