C     A linear congruential generator with long local work.
      PROGRAM LCG
      INTEGER X,S,I,M
      PARAMETER (M=2147483647)
      X=12345
      S=0
      DO 10 I=1,40000000
      X=MOD(X*16807+11,M)
      S=MOD(S+X,1000003)
   10 CONTINUE
      PRINT *,X,S
      END
