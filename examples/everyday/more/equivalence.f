      PROGRAM OVERLY
      INTEGER A(6), ROW1(3), ROW2(3), I
      EQUIVALENCE (A(1), ROW1(1)), (A(4), ROW2(1))
      DO 10 I = 1, 3
        ROW1(I) = I
        ROW2(I) = ROW1(I)*10
   10 CONTINUE
      PRINT *, A
      END
