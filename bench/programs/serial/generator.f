C     A generator of numbers, in a loop whose step is no constant.
      PROGRAM GENER
      INTEGER X
      N=1
      X=12345
      DO 10 I=1,300000,N
   10 X=MOD(X*16807,2147483647)
      PRINT *,X
      END
