      PROGRAM CHINES
      INTEGER M(3), R(3), X
      LOGICAL FITS
      DATA M /3, 5, 7/, R /2, 3, 2/
      X = 0
   10 IF (.NOT. FITS(X, M, R, 3)) THEN
        X = X + 1
        GO TO 10
      END IF
      PRINT *, X
      END
      LOGICAL FUNCTION FITS(X, M, R, N)
      INTEGER X, N, M(N), R(N), I
      FITS = .TRUE.
      DO 10 I = 1, N
   10 FITS = FITS .AND. MOD(X, M(I)) .EQ. R(I)
      END
