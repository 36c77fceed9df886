C     A product of matrices modulo a prime. No step is a constant, so that each loop stays serial.
      PROGRAM PROD
      INTEGER A(80,80),B(80,80),C(80,80),S,T
      N=1
      DO 10 J=1,80,N
      DO 10 I=1,80,N
      A(I,J)=MOD(I*31+J,1009)
   10 B(I,J)=MOD(I*17+J*13,1009)
      DO 40 J=1,80,N
      DO 30 I=1,80,N
      S=0
      DO 20 K=1,80,N
   20 S=MOD(S+A(I,K)*B(K,J),1000003)
   30 C(I,J)=S
   40 CONTINUE
      T=0
      DO 50 J=1,80,N
      DO 50 I=1,80,N
   50 T=MOD(T*31+C(I,J),1000003)
      PRINT *,T
      END
