      PROGRAM JOSEPH
      INTEGER N, K, I, WHO
      N = 41
      K = 3
      WHO = 0
      DO 10 I = 2, N
   10 WHO = MOD(WHO + K, I)
      PRINT *, WHO + 1
      END
