      PROGRAM LOOKUP
      INTEGER SIZE
      PARAMETER (SIZE = 8)
      INTEGER TABLE(SIZE), FIND
      DATA TABLE /2, 3, 5, 7, 11, 13, 17, 19/
      PRINT *, FIND(TABLE, SIZE, 11)
      PRINT *, FIND(TABLE, SIZE, 4)
      IF (FIND(TABLE, SIZE, 19) .EQ. SIZE) PRINT *, 'LAST'
      END
C
      INTEGER FUNCTION FIND(T, N, KEY)
C     The place of KEY in the sorted table T, or 0.
      INTEGER N, T(*), KEY, LOW, HIGH, MID
      LOW = 1
      HIGH = N
      FIND = 0
   10 IF (LOW .GT. HIGH) RETURN
      MID = (LOW + HIGH) / 2
      IF (T(MID) - KEY) 20, 30, 40
   20 LOW = MID + 1
      GO TO 10
   30 FIND = MID
      RETURN
   40 HIGH = MID - 1
      GO TO 10
      END
