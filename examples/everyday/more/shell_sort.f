      PROGRAM SHELL
      INTEGER N
      PARAMETER (N = 16)
      INTEGER A(N), I, SEED, GAP, J, T
      SEED = 7
      DO 10 I = 1, N
        SEED = MOD(SEED*37 + 11, 101)
        A(I) = SEED
   10 CONTINUE
      PRINT *, A
      GAP = N / 2
   20 IF (GAP .LT. 1) GO TO 60
      DO 50 I = GAP + 1, N
        T = A(I)
        J = I - GAP
   30   IF (J .LT. 1) GO TO 40
        IF (A(J) .LE. T) GO TO 40
        A(J + GAP) = A(J)
        J = J - GAP
        GO TO 30
   40   A(J + GAP) = T
   50 CONTINUE
      GAP = GAP / 2
      GO TO 20
   60 PRINT *, A
      END
