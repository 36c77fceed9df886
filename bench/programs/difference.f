C     Livermore kernel 12 in integers: differences of neighbours.
      PROGRAM DIFFER
      INTEGER X(100000),Y(100001),T
      DO 10 K=1,100001
   10 Y(K)=MOD(K*7919,1009)
      DO 20 K=1,100000
   20 X(K)=Y(K+1)-Y(K)
      T=0
      DO 30 K=1,100000
   30 T=MOD(T*31+ABS(X(K)),1000003)
      PRINT *,T
      END
