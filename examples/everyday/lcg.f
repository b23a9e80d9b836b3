C     A linear congruential generator whose state is kept in the function.
      PROGRAM THROWS
      INTEGER DICE, I, COUNTS(6), FACE
      SAVE COUNTS
      DATA COUNTS /6*0/
      DO 10 I = 1, 100
        FACE = DICE(6)
        COUNTS(FACE) = COUNTS(FACE) + 1
   10 CONTINUE
      DO 20 I = 1, 6
        PRINT *, I, COUNTS(I)
   20 CONTINUE
      END
      INTEGER FUNCTION DICE(SIDES)
      INTEGER SIDES, SEED
      SAVE SEED
      DATA SEED /12345/
      SEED = MOD(SEED*137 + 187, 6007)
      DICE = MOD(SEED, SIDES) + 1
      END
