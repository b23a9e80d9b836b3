      PROGRAM ACKER
C     Ackermann's function with a stack.
      INTEGER ACK, M
      DO 10 M = 0, 2
   10 PRINT *, M, ACK(M, 3)
      END
      INTEGER FUNCTION ACK(M, N)
      INTEGER M, N, STACK(500), TOP, I, J
      TOP = 1
      STACK(1) = M
      J = N
   10 IF (TOP .EQ. 0) GO TO 20
      I = STACK(TOP)
      TOP = TOP - 1
      IF (I .EQ. 0) THEN
        J = J + 1
      ELSE IF (J .EQ. 0) THEN
        J = 1
        TOP = TOP + 1
        STACK(TOP) = I - 1
      ELSE
        J = J - 1
        STACK(TOP + 1) = I - 1
        STACK(TOP + 2) = I
        TOP = TOP + 2
      END IF
      GO TO 10
   20 ACK = J
      END
