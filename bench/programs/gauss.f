C     Equations solved modulo a prime, without division until the end.
      PROGRAM GAUSS
      INTEGER A(70,71),P,F,T
      P=1000003
      DO 10 J=1,71
      DO 10 I=1,70
   10 A(I,J)=MOD(MOD(I*I*7919+J*J*31+I*J*J*17,1009)*(I+3*J)+I*J,P)+1
      DO 40 K=1,70
      DO 30 I=1,70
      IF (I.NE.K) THEN
      F=A(I,K)
      DO 20 J=1,71
   20 A(I,J)=MOD(A(I,J)*A(K,K)+(P-F)*A(K,J),P)
      END IF
   30 CONTINUE
   40 CONTINUE
      T=0
      DO 50 I=1,70
   50 T=MOD(T*31+A(I,I)*A(I,71),P)
      PRINT *,T
      END
