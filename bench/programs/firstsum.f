C     Livermore kernel 11 in integers: a sum that goes from one iteration to the next.
      PROGRAM FIRSUM
      INTEGER X(100000),Y(100000)
      DO 10 K=1,100000
   10 Y(K)=MOD(K*7919,1009)
      X(1)=Y(1)
      DO 20 K=2,100000
   20 X(K)=X(K-1)+Y(K)
      PRINT *,X(100000)
      END
