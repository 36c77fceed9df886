C     A merge sort of pseudo-random integers, from runs of one element up.
      PROGRAM SORT
      INTEGER A(262144),B(262144),N,W,X,Y,Z,I,K,P,R
      N=262144
      X=12345
      DO 10 I=1,N
      X=MOD(X*16807,2147483647)
   10 A(I)=X
      W=1
      DO 60 P=1,18
      DO 40 R=1,N,2*W
      Y=R
      Z=R+W
      DO 30 K=R,R+2*W-1
      IF (Z.GE.R+2*W) THEN
      B(K)=A(Y)
      Y=Y+1
      ELSE IF (Y.GE.R+W) THEN
      B(K)=A(Z)
      Z=Z+1
      ELSE IF (A(Y).LE.A(Z)) THEN
      B(K)=A(Y)
      Y=Y+1
      ELSE
      B(K)=A(Z)
      Z=Z+1
      END IF
   30 CONTINUE
   40 CONTINUE
      DO 50 I=1,N
   50 A(I)=B(I)
      W=2*W
   60 CONTINUE
      PRINT *,A(1),A(N/2),A(N)
      END
