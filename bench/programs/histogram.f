C     A histogram of integers.
      PROGRAM HISTOG
      INTEGER H(0:999),X(200000),T
      DO 10 I=1,200000
   10 X(I)=MOD(I*16807+I*I,2147483647)
      DO 20 I=1,200000
      K=MOD(X(I),1000)
   20 H(K)=H(K)+1
      T=0
      DO 30 K=0,999
   30 T=MOD(T*31+H(K),1000003)
      PRINT *,T
      END
