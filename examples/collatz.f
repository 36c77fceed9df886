C     How many steps it takes to come from N to 1, halving even numbers and taking 3N+1 of odd ones.
C     A DO with a bound stands in the place of a loop that ends by itself.
      DO 20 N=1,30
      K=N
      LENGTH=0
      DO 10 I=1,200
      IF (K.NE.1) THEN
      IF (MOD(K,2).EQ.0) THEN
      K=K/2
      ELSE
      K=3*K+1
      END IF
      LENGTH=LENGTH+1
      END IF
   10 CONTINUE
      IF (LENGTH.GT.MOST) THEN
      MOST=LENGTH
      LONGST=N
      END IF
   20 CONTINUE
      PRINT *,'LONGEST BELOW 31',LONGST,MOST
      END
