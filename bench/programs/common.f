C     The longest common subsequence of two sequences, in two rows.
      PROGRAM COMMON
      INTEGER A(600),B(600),L(0:600),M(0:600)
      DO 10 I=1,600
      A(I)=MOD(I*I*7919,13)
   10 B(I)=MOD(I*I*104729,11)
      DO 40 J=1,600
      DO 20 I=1,600
      IF (A(I).EQ.B(J)) THEN
      M(I)=L(I-1)+1
      ELSE
      M(I)=MAX(L(I),M(I-1))
      END IF
   20 CONTINUE
      DO 30 I=1,600
   30 L(I)=M(I)
   40 CONTINUE
      PRINT *,L(600)
      END
