C     Each place of a text where a word stands, as it goes.
      PROGRAM MATCH
      INTEGER X(20000),W(12),F(20000),H,T
      DO 10 I=1,20000
   10 X(I)=MOD(I*I/7,3)
      DO 20 K=1,12
   20 W(K)=X(100+K)
      DO 40 I=1,19988
      H=0
      DO 30 K=1,12
      IF (X(I+K).EQ.W(K)) H=H+1
   30 CONTINUE
   40 F(I)=H
      T=0
      DO 50 I=1,19988
      IF (F(I).EQ.12) T=T+1
   50 CONTINUE
      PRINT *,T
      END
