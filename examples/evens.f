C     Every second iteration needs the one two before it: an ELSE is made for the others.
      INTEGER A(0:12)
      DO 10 I=1,12
      IF (MOD(I,2).EQ.0) THEN
      A(I)=A(I-2)+1
      END IF
   10 CONTINUE
      PRINT *,A(11),A(12)
      END
