C     A register of 16 bits that is shifted, with an inner loop. No step is a constant.
      PROGRAM SHIFT
      INTEGER B(0:15),H,T
      N=1
      B(0)=1
      T=0
      DO 20 I=1,15000,N
      H=MOD(B(15)+B(13)+B(12)+B(10),2)
      DO 10 K=15,1,-N
   10 B(K)=B(K-1)
      B(0)=H
   20 T=MOD(T*2+H,1000003)
      PRINT *,T
      END
