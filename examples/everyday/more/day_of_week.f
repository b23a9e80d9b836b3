      PROGRAM DAYS
      INTEGER WEEKDY
      PRINT *, WEEKDY(1, 1, 2000), WEEKDY(4, 7, 1976)
      PRINT *, WEEKDY(29, 2, 2024)
      END
      INTEGER FUNCTION WEEKDY(DAY, MONTH, YEAR)
C     0 for Sunday, by Zeller's congruence.
      INTEGER DAY, MONTH, YEAR, M, Y
      M = MONTH
      Y = YEAR
      IF (M .LT. 3) THEN
        M = M + 12
        Y = Y - 1
      END IF
      WEEKDY = MOD(DAY + 13*(M + 1)/5 + Y + Y/4 - Y/100 + Y/400 + 6, 7)
      END
