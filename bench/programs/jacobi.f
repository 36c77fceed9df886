C     Sweeps of Jacobi's method over a grid.
      PROGRAM JACOBI
      INTEGER A(0:101,0:101),B(0:101,0:101),R,T
      DO 10 J=0,101
      DO 10 I=0,101
   10 A(I,J)=MOD(I*7919+J*104729,1000)*1000
      DO 50 R=1,40
      DO 30 J=1,100
      DO 20 I=1,100
   20 B(I,J)=(A(I-1,J)+A(I+1,J)+A(I,J-1)+A(I,J+1))/4
   30 CONTINUE
      DO 40 J=1,100
      DO 40 I=1,100
   40 A(I,J)=B(I,J)
   50 CONTINUE
      T=0
      DO 60 J=1,100
      DO 60 I=1,100
   60 T=MOD(T*31+A(I,J),1000003)
      PRINT *,T
      END
