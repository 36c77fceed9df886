C     A sign before an expression is weaker than * and / and as strong as + and -.
      PRINT *,-2*3,-6/4,-2+3
      PRINT *,'-2-3 IS',-2-3
      PRINT *,'-(2-3) IS',-(2-3)
      PRINT *,'10-4-3 GOES FROM THE LEFT',10-4-3
      PRINT *,'10-(4-3) IS',10-(4-3)
      PRINT *,'2+3*4 IS',2+3*4
      PRINT *,'(2+3)*4 IS',(2+3)*4
      END
