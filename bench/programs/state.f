C     Livermore kernel 7 in integers: a fragment of an equation of state.
      PROGRAM STATE
      INTEGER X(995),Y(1001),Z(1001),U(1001),R,Q,T
      R=3
      Q=5
      DO 10 K=1,1001
      Y(K)=MOD(K*7919,1009)
      Z(K)=MOD(K*104729,997)
   10 U(K)=MOD(K*K,991)
      DO 30 L=1,60
      DO 20 K=1,995
   20 X(K)=MOD(U(K)+R*(Z(K)+R*Y(K))+
     1  7*(U(K+3)+R*(U(K+2)+R*U(K+1))+
     2  7*(U(K+6)+Q*(U(K+5)+Q*U(K+4)))),1000003)
   30 CONTINUE
      T=0
      DO 40 K=1,995
   40 T=MOD(T*31+X(K),1000003)
      PRINT *,T
      END
