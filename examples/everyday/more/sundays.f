      PROGRAM SUNDAY
C     How many months of the twentieth century began on a Sunday.
      INTEGER DAYS(12), YEAR, MONTH, DAY, COUNT
      LOGICAL LEAP
      INTEGER Y
      DATA DAYS /31, 28, 31, 30, 31, 30, 31, 31, 30, 31, 30, 31/
      LEAP(Y) = MOD(Y, 4) .EQ. 0 .AND. Y .NE. 1900
      DAY = 1
      COUNT = 0
      DO 20 YEAR = 1900, 2000
        DO 10 MONTH = 1, 12
          IF (YEAR .GT. 1900 .AND. DAY .EQ. 0) COUNT = COUNT + 1
          DAY = MOD(DAY + DAYS(MONTH), 7)
          IF (MONTH .EQ. 2 .AND. LEAP(YEAR)) DAY = MOD(DAY + 1, 7)
   10   CONTINUE
   20 CONTINUE
      PRINT *, COUNT
      END
