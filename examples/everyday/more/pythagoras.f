      PROGRAM TRIPLE
      INTEGER A, B, C, LIMIT
      PARAMETER (LIMIT = 30)
      DO 10 A = 1, LIMIT
      DO 10 B = A + 1, LIMIT
      DO 10 C = B + 1, LIMIT
   10 IF (A*A + B*B .EQ. C*C) PRINT *, A, B, C
      END
