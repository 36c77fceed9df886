C     The game of life on a torus of 80 by 80.
      PROGRAM LIFE
      INTEGER A(0:81,0:81),B(80,80),G,T
      DO 10 J=1,80
      DO 10 I=1,80
   10 A(I,J)=MOD(MOD(I*I*7919+J*J*31+I*J,1009),2)
      DO 60 G=1,25
      DO 20 I=1,80
      A(I,0)=A(I,80)
   20 A(I,81)=A(I,1)
      DO 30 J=0,81
      A(0,J)=A(80,J)
   30 A(81,J)=A(1,J)
      DO 40 J=1,80
      DO 40 I=1,80
      N=A(I-1,J-1)+A(I,J-1)+A(I+1,J-1)+A(I-1,J)+A(I+1,J)
      N=N+A(I-1,J+1)+A(I,J+1)+A(I+1,J+1)
      B(I,J)=0
      IF (N.EQ.3.OR.N.EQ.2.AND.A(I,J).EQ.1) B(I,J)=1
   40 CONTINUE
      DO 50 J=1,80
      DO 50 I=1,80
   50 A(I,J)=B(I,J)
   60 CONTINUE
      T=0
      DO 70 J=1,80
      DO 70 I=1,80
   70 T=MOD(T*31+A(I,J),1000003)
      PRINT *,T
      END
