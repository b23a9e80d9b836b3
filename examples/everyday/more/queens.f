      PROGRAM QUEENS
C     How often eight queens stand on a board so that none attacks another.
      INTEGER N
      PARAMETER (N = 8)
      INTEGER ROW(N), COLUMN, COUNT, I
      LOGICAL FREE
      COUNT = 0
      COLUMN = 1
      ROW(1) = 0
   10 ROW(COLUMN) = ROW(COLUMN) + 1
      IF (ROW(COLUMN) .GT. N) THEN
        COLUMN = COLUMN - 1
        IF (COLUMN .EQ. 0) GO TO 40
        GO TO 10
      END IF
      FREE = .TRUE.
      DO 20 I = 1, COLUMN - 1
        IF (ROW(I) .EQ. ROW(COLUMN)) FREE = .FALSE.
        IF (ABS(ROW(I) - ROW(COLUMN)) .EQ. COLUMN - I) FREE = .FALSE.
   20 CONTINUE
      IF (.NOT. FREE) GO TO 10
      IF (COLUMN .EQ. N) THEN
        COUNT = COUNT + 1
        IF (COUNT .EQ. 1) PRINT *, ROW
        GO TO 10
      END IF
      COLUMN = COLUMN + 1
      ROW(COLUMN) = 0
      GO TO 10
   40 PRINT *, COUNT, ' WAYS'
      END
