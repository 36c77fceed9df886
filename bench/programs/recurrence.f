C     Livermore kernel 6 in integers: a general linear recurrence.
      PROGRAM RECURR
      INTEGER W(300),B(300,300),S,T
      DO 10 J=1,300
      DO 10 I=1,300
   10 B(I,J)=MOD(I*7919+J*104729,1009)
      DO 20 I=1,300
   20 W(I)=I
      DO 40 I=2,300
      S=W(I)
      DO 30 K=1,I-1
   30 S=MOD(S+B(I,K)*W(I-K),1000003)
   40 W(I)=S
      T=0
      DO 50 I=1,300
   50 T=MOD(T*31+W(I),1000003)
      PRINT *,T
      END
