C     How many of 100 steps each number takes to come to 1.
      PROGRAM COLLAT
      INTEGER S(2000),X,T
      DO 20 I=1,2000
      X=I
      N=0
      DO 10 K=1,100
      IF (X.NE.1) THEN
      N=N+1
      IF (MOD(X,2).EQ.0) THEN
      X=X/2
      ELSE
      X=3*X+1
      END IF
      END IF
   10 CONTINUE
   20 S(I)=N
      T=0
      DO 30 I=1,2000
   30 T=MOD(T*31+S(I),1000003)
      PRINT *,T
      END
