C     Sorting by exchanges of neighbours, at odd places and even ones in turn.
      PROGRAM ODDEVN
      INTEGER A(400),H,R,T
      DO 10 I=1,400
   10 A(I)=MOD(I*7919,10007)
      DO 30 R=1,400
      DO 20 I=1+MOD(R,2),399,2
      IF (A(I).GT.A(I+1)) THEN
      H=A(I)
      A(I)=A(I+1)
      A(I+1)=H
      END IF
   20 CONTINUE
   30 CONTINUE
      T=0
      DO 40 I=1,400
   40 T=MOD(T*31+A(I),1000003)
      PRINT *,T
      END
