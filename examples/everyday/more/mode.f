      PROGRAM MODES
      INTEGER X(11), BEST, TIMES, I, TALLY
      DATA X /4, 2, 4, 7, 2, 4, 9, 7, 7, 4, 1/
      TIMES = 0
      DO 10 I = 1, 11
        IF (TALLY(X, 11, X(I)) .GT. TIMES) THEN
          TIMES = TALLY(X, 11, X(I))
          BEST = X(I)
        END IF
   10 CONTINUE
      PRINT *, 'MODE', BEST, ' SEEN', TIMES
      END
      INTEGER FUNCTION TALLY(X, N, V)
      INTEGER N, X(N), V
      TALLY = 0
      DO 10 I = 1, N
   10 IF (X(I) .EQ. V) TALLY = TALLY + 1
      END
