C     Livermore kernel 3 in integers: inner products of the columns of two tables.
      PROGRAM INNER
      INTEGER X(1000),Z(1000,200),P(200),Q,T
      DO 10 K=1,1000
   10 X(K)=MOD(K*7919,1009)
      DO 20 J=1,200
      DO 20 K=1,1000
   20 Z(K,J)=MOD(K*J,997)
      DO 40 J=1,200
      Q=0
      DO 30 K=1,1000
   30 Q=Q+Z(K,J)*X(K)
   40 P(J)=Q
      T=0
      DO 50 J=1,200
   50 T=MOD(T*31+P(J),1000003)
      PRINT *,T
      END
