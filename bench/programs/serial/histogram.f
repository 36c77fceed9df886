C     A histogram of pseudo-random integers, in a loop whose step is no constant.
      PROGRAM HISTOG
      INTEGER H(0:999),X,T
      N=1
      X=12345
      DO 10 I=1,150000,N
      X=MOD(X*16807,2147483647)
      K=MOD(X,1000)
   10 H(K)=H(K)+1
      T=0
      DO 20 K=0,999,N
   20 T=MOD(T*31+H(K),1000003)
      PRINT *,T
      END
