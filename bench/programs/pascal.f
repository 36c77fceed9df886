C     Pascal's triangle modulo a prime, row after row.
      PROGRAM PASCAL
      INTEGER C(0:500,0:500),T
      DO 10 N=0,500
      C(0,N)=1
   10 C(N,N)=1
      DO 30 N=2,500
      DO 20 K=1,N-1
   20 C(K,N)=MOD(C(K-1,N-1)+C(K,N-1),1000003)
   30 CONTINUE
      T=0
      DO 40 K=0,500
   40 T=MOD(T*31+C(K,500),1000003)
      PRINT *,T
      END
