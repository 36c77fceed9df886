C     Livermore kernel 24 in integers: the place of the least element of each column.
      PROGRAM LEAST
      INTEGER X(1000,200),P(200),M,T
      DO 10 J=1,200
      DO 10 K=1,1000
   10 X(K,J)=MOD(K*K*7919+J*104729,1000003)
      DO 30 J=1,200
      M=1
      DO 20 K=2,1000
      IF (X(K,J).LT.X(M,J)) M=K
   20 CONTINUE
   30 P(J)=M
      T=0
      DO 40 J=1,200
   40 T=MOD(T*31+P(J),1000003)
      PRINT *,T
      END
