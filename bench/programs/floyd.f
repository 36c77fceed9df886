C     All shortest ways between the places of a net.
      PROGRAM FLOYD
      INTEGER D(80,80),T
      DO 10 J=1,80
      DO 10 I=1,80
   10 D(I,J)=MOD(I*7919+J*J*104729,997)+1
      DO 40 K=1,80
      DO 30 J=1,80
      DO 20 I=1,80
   20 D(I,J)=MIN(D(I,J),D(I,K)+D(K,J))
   30 CONTINUE
   40 CONTINUE
      T=0
      DO 50 J=1,80
      DO 50 I=1,80
   50 T=MOD(T*31+D(I,J),1000003)
      PRINT *,T
      END
