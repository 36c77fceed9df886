C     A stencil of five points, in place, column after column.
      PROGRAM STENCL
      INTEGER A(0:201,0:201),R,T
      DO 10 J=0,201
      DO 10 I=0,201
   10 A(I,J)=MOD(I*7919+J*104729,1000)*1000
      DO 40 R=1,10
      DO 30 J=1,200
      DO 20 I=1,200
   20 A(I,J)=(4*A(I,J)+A(I-1,J)+A(I+1,J)+A(I,J-1)+A(I,J+1))/8
   30 CONTINUE
   40 CONTINUE
      T=0
      DO 50 J=1,200
      DO 50 I=1,200
   50 T=MOD(T*31+A(I,J),1000003)
      PRINT *,T
      END
