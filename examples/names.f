C     Blanks mean nothing outside of texts, and small letters are capitals: all these lines name TOTAL.
      INTEGER TOTAL,X
      TOTAL=40
      T O T A L = total + 2
      X=TOTAL
C     Without the INTEGER statement X would be a real number, and so would TOTAL; K needs none.
      K=X-1
      PRINT *,TOTAL,X,K
      END
