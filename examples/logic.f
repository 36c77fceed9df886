C     Relations bind more tightly than .NOT., that than .AND., that than
C     .OR., and .EQV. and .NEQV. least, from the left.
      INTEGER A,B,C,D,E,F,G
      DO 10 A=0,1
      DO 10 B=0,1
      DO 10 C=0,1
      DO 10 D=0,1
      E=0
      IF (A.EQ.1.OR.B.EQ.1.AND.C.EQ.1.OR.D.EQ.1) E=1
      F=0
      IF (A.EQ.1.EQV.B.EQ.1.NEQV.C.EQ.1.OR..NOT.D.EQ.1) F=1
      G=0
      IF (.NOT.A.LT.B+1.AND..TRUE..OR.-C.EQ.-D) G=1
   10 PRINT *,A,B,C,D,E,F,G
      END
