C     How many steps numbers take to come to 1, of 100 at most. No step is a constant.
      PROGRAM COLLAT
      INTEGER X,T
      M=1
      T=0
      DO 20 I=1,1500,M
      X=I
      N=0
      DO 10 K=1,100,M
      IF (X.NE.1) THEN
      N=N+1
      IF (MOD(X,2).EQ.0) THEN
      X=X/2
      ELSE
      X=3*X+1
      END IF
      END IF
   10 CONTINUE
   20 T=MOD(T*31+N,1000003)
      PRINT *,T
      END
