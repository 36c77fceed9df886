C     The largest INTEGER and one more: the second PRINT never comes, and the run ends with a fault.
      K=9223372036854775807
      PRINT *,'THE LARGEST INTEGER IS',K
      K=K+1
      PRINT *,'ONE MORE IS',K
      END
