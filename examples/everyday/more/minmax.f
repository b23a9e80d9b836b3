      PROGRAM MINMAX
      INTEGER A(7), LOW, HIGH
      DATA A /12, -4, 33, 7, 0, 28, -9/
      CALL RANGE(A, 7, LOW, HIGH)
      PRINT *, 'FROM', LOW, ' TO', HIGH
      END
      SUBROUTINE RANGE(A, N, LOW, HIGH)
      DIMENSION A(N)
      INTEGER A, HIGH
      LOW = A(1)
      HIGH = A(1)
      DO 10 I = 2, N
        LOW = MIN(LOW, A(I))
        HIGH = MAX(HIGH, A(I))
   10 CONTINUE
      END
