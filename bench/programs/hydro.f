C     Livermore kernel 1 in integers: a fragment of hydrodynamics.
      PROGRAM HYDRO
      INTEGER X(1000),Y(1000),Z(1011),Q,R,T,U
      Q=5
      R=3
      T=7
      DO 10 K=1,1011
   10 Z(K)=MOD(K*7919,1009)
      DO 20 K=1,1000
   20 Y(K)=MOD(K*104729,997)
      DO 40 L=1,150
      DO 30 K=1,1000
   30 X(K)=Q+Y(K)*(R*Z(K+10)+T*Z(K+11))
   40 CONTINUE
      U=0
      DO 50 K=1,1000
   50 U=MOD(U*31+X(K),1000003)
      PRINT *,U
      END
