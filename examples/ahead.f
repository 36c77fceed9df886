C     Each element is read before a later trip gives it a value, so the old values are moved down.
      INTEGER A(8)
      DO 10 I=1,8
   10 A(I)=I*I
      DO 20 I=1,7
   20 A(I)=A(I+1)-A(I)
      PRINT *,'DIFFERENCES OF SQUARES'
      PRINT *,A(1),A(2),A(3),A(4),A(5),A(6),A(7)
      END
