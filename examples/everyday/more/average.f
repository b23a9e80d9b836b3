      PROGRAM AVERAG
C     The mean of ten marks, cut to a whole number, and how many lie above it.
      INTEGER N
      PARAMETER (N = 10)
      INTEGER MARKS(N), TOTAL, MEAN, ABOVE, I
      DATA MARKS /55, 71, 62, 48, 90, 33, 77, 81, 59, 64/
      TOTAL = 0
      DO 10 I = 1, N
        TOTAL = TOTAL + MARKS(I)
   10 CONTINUE
      MEAN = TOTAL / N
      ABOVE = 0
      DO 20 I = 1, N
        IF (MARKS(I) .GT. MEAN) ABOVE = ABOVE + 1
   20 CONTINUE
      PRINT *, 'MEAN', MEAN, ' ABOVE', ABOVE
      END
