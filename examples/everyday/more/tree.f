      PROGRAM TREES
C     A binary search tree, printed in order with a stack.
      INTEGER KEY(20), LEFT(20), RIGHT(20), COUNT
      COMMON /TREE/ KEY, LEFT, RIGHT, COUNT
      INTEGER STACK(20), TOP, AT, I, GIVEN(7)
      DATA GIVEN /50, 30, 70, 20, 40, 60, 80/
      COUNT = 0
      DO 10 I = 1, 7
   10 CALL ADD(GIVEN(I))
      TOP = 0
      AT = 1
   20 IF (AT .NE. 0) THEN
        TOP = TOP + 1
        STACK(TOP) = AT
        AT = LEFT(AT)
        GO TO 20
      END IF
      IF (TOP .EQ. 0) STOP
      AT = STACK(TOP)
      TOP = TOP - 1
      PRINT *, KEY(AT)
      AT = RIGHT(AT)
      GO TO 20
      END
      SUBROUTINE ADD(K)
      INTEGER KEY(20), LEFT(20), RIGHT(20), COUNT, K, AT
      COMMON /TREE/ KEY, LEFT, RIGHT, COUNT
      COUNT = COUNT + 1
      KEY(COUNT) = K
      LEFT(COUNT) = 0
      RIGHT(COUNT) = 0
      IF (COUNT .EQ. 1) RETURN
      AT = 1
   10 IF (K .LT. KEY(AT)) THEN
        IF (LEFT(AT) .EQ. 0) THEN
          LEFT(AT) = COUNT
          RETURN
        END IF
        AT = LEFT(AT)
      ELSE
        IF (RIGHT(AT) .EQ. 0) THEN
          RIGHT(AT) = COUNT
          RETURN
        END IF
        AT = RIGHT(AT)
      END IF
      GO TO 10
      END
