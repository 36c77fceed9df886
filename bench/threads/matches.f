      INTEGER X(40000),W(64),F(40000),H,T
      DO 10 I=1,40000
   10 X(I)=MOD(I*I/7,3)
      DO 20 K=1,64
   20 W(K)=X(100+K)
      DO 40 I=1,39900
      H=0
      DO 30 K=1,64
      IF (X(I+K).EQ.W(K)) H=H+1
   30 CONTINUE
   40 F(I)=H
      T=0
      DO 50 I=1,39900,39
   50 T=MOD(T*31+F(I),1000003)
      PRINT *,T
      END
