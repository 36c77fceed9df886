C     A product of matrices modulo a prime.
      PROGRAM PROD
      INTEGER A(100,100),B(100,100),C(100,100),S,T
      DO 10 J=1,100
      DO 10 I=1,100
      A(I,J)=MOD(I*31+J,1009)
   10 B(I,J)=MOD(I*17+J*13,1009)
      DO 40 J=1,100
      DO 30 I=1,100
      S=0
      DO 20 K=1,100
   20 S=MOD(S+A(I,K)*B(K,J),1000003)
   30 C(I,J)=S
   40 CONTINUE
      T=0
      DO 50 J=1,100
      DO 50 I=1,100
   50 T=MOD(T*31+C(I,J),1000003)
      PRINT *,T
      END
