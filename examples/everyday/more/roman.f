      PROGRAM ROMAN
C     How many letters the numbers take in Roman writing.
      INTEGER VALUE(13), SIZE(13), I, N, LEFT, LETTER
      DATA VALUE /1000, 900, 500, 400, 100, 90, 50, 40, 10, 9, 5, 4, 1/
      DATA SIZE /1, 2, 1, 2, 1, 2, 1, 2, 1, 2, 1, 2, 1/
      DO 30 N = 1984, 1999, 5
        LEFT = N
        LETTER = 0
        DO 20 I = 1, 13
   10     IF (LEFT .GE. VALUE(I)) THEN
            LEFT = LEFT - VALUE(I)
            LETTER = LETTER + SIZE(I)
            GO TO 10
          END IF
   20   CONTINUE
        PRINT *, N, LETTER
   30 CONTINUE
      END
