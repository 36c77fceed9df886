C     The convolution of a signal with a short filter.
      PROGRAM CONVOL
      INTEGER X(20032),H(32),Y(20000),S,T
      DO 10 I=1,20032
   10 X(I)=MOD(I*7919,2001)-1000
      DO 20 K=1,32
   20 H(K)=MOD(K*104729,65)-32
      DO 40 I=1,20000
      S=0
      DO 30 K=1,32
   30 S=S+X(I+K)*H(K)
   40 Y(I)=S
      T=0
      DO 50 I=1,20000
   50 T=MOD(T*31+ABS(Y(I)),1000003)
      PRINT *,T
      END
