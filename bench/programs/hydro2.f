C     Livermore kernel 23 in integers: implicit hydrodynamics in two dimensions.
      PROGRAM HYDRO2
      INTEGER Z(101,101),U(101,101),V(101,101),Q,T
      DO 10 J=1,101
      DO 10 K=1,101
      Z(K,J)=MOD(K*7919+J*104729,1009)
      U(K,J)=MOD(K*J,5)-2
   10 V(K,J)=MOD(K+J,7)-3
      DO 40 L=1,20
      DO 30 J=2,100
      DO 20 K=2,100
      Q=Z(K,J+1)*U(K,J)+Z(K,J-1)*V(K,J)+Z(K+1,J)*U(J,K)+Z(K-1,J)*V(J,K)
   20 Z(K,J)=MOD(Z(K,J)*3+Q,65536)
   30 CONTINUE
   40 CONTINUE
      T=0
      DO 50 J=1,101
      DO 50 K=1,101
   50 T=MOD(T*31+ABS(Z(K,J)),1000003)
      PRINT *,T
      END
