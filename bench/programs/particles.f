C     Livermore kernel 14 in integers: particles that charge the cells that they are in.
      PROGRAM PARTIC
      INTEGER X(2000),V(2000),E(0:511),R(0:511),T
      DO 10 K=0,511
   10 E(K)=MOD(K*7919,63)-31
      DO 20 N=1,2000
      X(N)=MOD(N*104729,65536)
   20 V(N)=MOD(N*31,127)
      DO 40 L=1,20
      DO 30 N=1,2000
      I=MOD(X(N)/128,512)
      V(N)=V(N)+E(I)
      X(N)=MOD(X(N)+V(N)+1048576,65536)
   30 R(I)=R(I)+1
   40 CONTINUE
      T=0
      DO 50 K=0,511
   50 T=MOD(T*31+R(K),1000003)
      PRINT *,T
      END
