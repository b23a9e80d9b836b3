      PROGRAM SERIES
      INTEGER SUMSQ, SUMCUB, I
      SUMSQ(N) = N*(N + 1)*(2*N + 1)/6
      SUMCUB(N) = (N*(N + 1)/2)**2
      DO 10 I = 1, 10, 3
   10 PRINT *, I, SUMSQ(I), SUMCUB(I), SUMCUB(I) - SUMSQ(I)
      END
