C     Pascal's triangle modulo a prime, row by row, twice.
      PROGRAM PASCAL
      INTEGER P(0:4000),I,J,R
      DO 30 R=1,2
      DO 5 I=0,4000
    5 P(I)=0
      P(0)=1
      DO 20 I=1,4000
      DO 10 J=I,1,-1
   10 P(J)=MOD(P(J)+P(J-1),1000003)
   20 CONTINUE
   30 CONTINUE
      PRINT *,P(2000),P(1999),P(4000)
      END
