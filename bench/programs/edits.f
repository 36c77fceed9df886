C     The edit distance of two sequences.
      PROGRAM EDITS
      INTEGER A(600),B(600),D(0:600,0:600),C
      DO 10 I=1,600
      A(I)=MOD(I*7919,31)
   10 B(I)=MOD(I*104729,29)
      DO 20 I=0,600
      D(I,0)=I
   20 D(0,I)=I
      DO 40 J=1,600
      DO 30 I=1,600
      C=1
      IF (A(I).EQ.B(J)) C=0
      D(I,J)=MIN(D(I-1,J)+1,D(I,J-1)+1,D(I-1,J-1)+C)
   30 CONTINUE
   40 CONTINUE
      PRINT *,D(600,600)
      END
