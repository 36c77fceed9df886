C     A matrix as a product of two triangles, modulo a prime. The inverse is a power of P-2.
      PROGRAM LU
      INTEGER A(80,80),P,V,W,E,T
      P=1000003
      DO 10 J=1,80
      DO 10 I=1,80
   10 A(I,J)=MOD(MOD(I*I*7919+J*J*31+I*J*J*17,1009)*(I+3*J)+I*J,P)+1
      DO 60 K=1,79
      V=1
      W=A(K,K)
      E=P-2
      DO 20 L=1,20
      IF (MOD(E,2).EQ.1) V=MOD(V*W,P)
      W=MOD(W*W,P)
   20 E=E/2
      DO 30 I=K+1,80
   30 A(I,K)=MOD(A(I,K)*V,P)
      DO 50 J=K+1,80
      DO 40 I=K+1,80
   40 A(I,J)=MOD(A(I,J)+(P-A(I,K))*A(K,J),P)
   50 CONTINUE
   60 CONTINUE
      T=1
      DO 70 K=1,80
   70 T=MOD(T*A(K,K),P)
      PRINT *,T
      END
