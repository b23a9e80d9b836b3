      PROGRAM TRIAN
      INTEGER A, B, C, I
      DO 10 I = 1, 4
        READ *, A, B, C
        IF (A + B .LE. C .OR. A + C .LE. B .OR. B + C .LE. A) THEN
          PRINT *, 'NO TRIANGLE'
        ELSE IF (A .EQ. B .AND. B .EQ. C) THEN
          PRINT *, 'EQUILATERAL'
        ELSE IF (A .EQ. B .OR. B .EQ. C .OR. A .EQ. C) THEN
          PRINT *, 'ISOSCELES'
        ELSE
          PRINT *, 'SCALENE'
        ENDIF
   10 CONTINUE
      END
