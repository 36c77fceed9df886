C     The dearest load of a knapsack, over one thing after another.
      PROGRAM KNAPSK
      INTEGER B(0:5000),W,V
      DO 10 J=0,5000
   10 B(J)=0
      DO 30 I=1,120
      W=MOD(I*7919,97)+5
      V=MOD(I*104729,1009)+1
      DO 20 J=5000,W,-1
   20 B(J)=MAX(B(J),B(J-W)+V)
   30 CONTINUE
      PRINT *,B(5000)
      END
