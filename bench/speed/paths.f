C     The shortest paths between all pairs of nodes.
      PROGRAM PATHS
      INTEGER D(220,220),I,J,K,S,N,T
      N=220
      DO 10 J=1,N
      DO 10 I=1,N
   10 D(I,J)=MOD(I*7919+J*104729,1000)+1
      DO 40 K=1,N
      DO 30 J=1,N
      DO 20 I=1,N
      T=D(I,K)+D(K,J)
      IF (T.LT.D(I,J)) D(I,J)=T
   20 CONTINUE
   30 CONTINUE
   40 CONTINUE
      S=0
      DO 50 J=1,N
      DO 50 I=1,N
   50 S=S+D(I,J)
      PRINT *,S
      END
