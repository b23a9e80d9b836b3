      I=0
      J=1
      K=I+J
      I=J+K
      J=I+K
      K=I+J
      PRINT *,I,J,K
      END
