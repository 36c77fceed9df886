C     A product of matrices modulo a prime.
      PROGRAM PROD
      INTEGER A(320,320),B(320,320),C(320,320),I,J,K,S
      DO 10 J=1,320
      DO 10 I=1,320
      A(I,J)=MOD(I*31+J,1009)
   10 B(I,J)=MOD(I*17+J*13,1009)
      DO 40 J=1,320
      DO 30 I=1,320
      S=0
      DO 20 K=1,320
   20 S=MOD(S+A(I,K)*B(K,J),1000003)
   30 C(I,J)=S
   40 CONTINUE
      PRINT *,C(1,1),C(320,320)
      END
