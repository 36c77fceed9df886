      INTEGER A(400),M,T
      DO 20 I=1,400
      M=I
      DO 10 J=1,20000
   10 M=MOD(M*16807+J,2147483647)
   20 A(I)=M
      T=0
      DO 50 I=1,400
   50 T=MOD(T*31+A(I),1000003)
      PRINT *,T
      END
