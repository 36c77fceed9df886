C     A histogram of pseudo-random integers.
      PROGRAM HISTOG
      INTEGER H(0:999),X,I,K,M
      DO 5 I=0,999
    5 H(I)=0
      X=12345
      DO 10 I=1,10000000
      X=MOD(X*16807,2147483647)
      K=MOD(X,1000)
   10 H(K)=H(K)+1
      M=0
      DO 20 I=0,999
   20 M=MAX(M,H(I))
      PRINT *,H(0),H(999),M
      END
