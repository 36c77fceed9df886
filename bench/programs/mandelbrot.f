C     Mandelbrot's set in whole thousandths.
      PROGRAM MANDEL
      INTEGER C(60,40),X,Y,U,V,W,T
      DO 30 J=1,40
      DO 20 I=1,60
      U=I*50-2200
      V=J*60-1200
      X=0
      Y=0
      N=0
      DO 10 K=1,40
      IF (X*X+Y*Y.LE.4000000) THEN
      N=N+1
      W=(X*X-Y*Y)/1000+U
      Y=2*X*Y/1000+V
      X=W
      END IF
   10 CONTINUE
   20 C(I,J)=N
   30 CONTINUE
      T=0
      DO 40 J=1,40
      DO 40 I=1,60
   40 T=MOD(T*31+C(I,J),1000003)
      PRINT *,T
      END
