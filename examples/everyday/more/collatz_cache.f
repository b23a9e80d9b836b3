      PROGRAM CACHE
      INTEGER LIMIT
      PARAMETER (LIMIT = 100)
      INTEGER STEPS(LIMIT), I, BEST, LENGTH
      COMMON /MEMORY/ STEPS
      BEST = 1
      DO 10 I = 1, LIMIT
        STEPS(I) = LENGTH(I)
        IF (STEPS(I) .GT. STEPS(BEST)) BEST = I
   10 CONTINUE
      PRINT *, BEST, STEPS(BEST)
      END
      INTEGER FUNCTION LENGTH(START)
      INTEGER LIMIT
      PARAMETER (LIMIT = 100)
      INTEGER STEPS(LIMIT), START, N
      COMMON /MEMORY/ STEPS
      N = START
      LENGTH = 0
      DO WHILE (N .GT. 1)
        IF (MOD(N, 2) .EQ. 0) THEN
          N = N/2
        ELSE
          N = 3*N + 1
        END IF
        LENGTH = LENGTH + 1
        IF (N .LT. START) THEN
          LENGTH = LENGTH + STEPS(N)
          RETURN
        END IF
      END DO
      END
