      INTEGER A(200,200),B(200,200),C(200,200),S,T
      DO 10 J=1,200
      DO 10 I=1,200
      A(I,J)=MOD(I*31+J,1009)
   10 B(I,J)=MOD(I*17+J*13,1009)
      DO 40 J=1,200
      DO 30 I=1,200
      S=0
      DO 20 K=1,200
   20 S=S+A(I,K)*B(K,J)
   30 C(I,J)=S
   40 CONTINUE
      T=0
      DO 50 J=1,200
   50 T=MOD(T*31+C(J,J)+C(1,J)*3+C(J,200),1000003)
      PRINT *,T
      END
