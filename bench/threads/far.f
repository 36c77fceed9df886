      INTEGER A(20000),X(20050),W(50),S
      DO 10 I=1,20050
   10 X(I)=MOD(I*7919,2001)-1000
      DO 20 K=1,50
   20 W(K)=MOD(K*104729,65)-32
      DO 30 I=1,64
   30 A(I)=I
      DO 50 I=65,20000
      S=0
      DO 40 K=1,50
   40 S=S+X(I+K)*W(K)
   50 A(I)=MOD(A(I-64)+ABS(S),1000003)
      PRINT *,A(20000)
      END
