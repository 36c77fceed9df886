C     Texts in a PRINT go out as they are; only a number has a blank before it. Two ' are one.
      K=3
      PRINT *,'K IS',K
      PRINT *,'K IS ',K,' TODAY'
      PRINT *,'IT''S',K
      PRINT *,K,K+1,K*K
      PRINT *
      PRINT *,'THE LINE ABOVE IS EMPTY'
      END
