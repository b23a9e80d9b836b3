      PROGRAM RMEAN
C     Reads how many numbers follow, and these, and prints sum and mean.
      INTEGER N, X(100), I, SUM
      READ *, N
      READ *, (X(I), I = 1, N)
      SUM = 0
      DO 10 I = 1, N
   10 SUM = SUM + X(I)
      PRINT *, 'SUM', SUM
      PRINT *, 'MEAN', SUM/N
      END
