      INTEGER X(60064),H(64),Y(60000),S,T
      DO 10 I=1,60064
   10 X(I)=MOD(I*7919,2001)-1000
      DO 20 K=1,64
   20 H(K)=MOD(K*104729,65)-32
      DO 40 I=1,60000
      S=0
      DO 30 K=1,64
   30 S=S+X(I+K)*H(K)
   40 Y(I)=S
      T=0
      DO 50 I=1,60000,59
   50 T=MOD(T*31+ABS(Y(I)),1000003)
      PRINT *,T
      END
