      PROGRAM PAIRS
      INTEGER N, WANTED
      PARAMETER (N = 8, WANTED = 20)
      INTEGER A(N), LOW, HIGH
      DATA A /1, 4, 6, 9, 11, 14, 16, 19/
      LOW = 1
      HIGH = N
   10 IF (LOW .LT. HIGH) THEN
        IF (A(LOW) + A(HIGH) .EQ. WANTED) THEN
          PRINT *, A(LOW), A(HIGH)
          LOW = LOW + 1
          HIGH = HIGH - 1
        ELSE IF (A(LOW) + A(HIGH) .LT. WANTED) THEN
          LOW = LOW + 1
        ELSE
          HIGH = HIGH - 1
        END IF
        GO TO 10
      END IF
      END
