C     The edit distance of two sequences.
      PROGRAM EDITS
      INTEGER A(1000),B(1000),D(0:1000,0:1000),I,J,C,R
      DO 10 I=1,1000
      A(I)=MOD(I*7919,31)
   10 B(I)=MOD(I*104729,29)
      DO 20 I=0,1000
      D(I,0)=I
   20 D(0,I)=I
      DO 50 R=1,8
      DO 40 J=1,1000
      DO 30 I=1,1000
      C=1
      IF (A(I).EQ.B(J)) C=0
      D(I,J)=MIN(D(I-1,J)+1,D(I,J-1)+1,D(I-1,J-1)+C)
   30 CONTINUE
   40 CONTINUE
   50 CONTINUE
      PRINT *,D(1000,1000)
      END
