      PROGRAM RULE90
      INTEGER N
      PARAMETER (N = 15)
      INTEGER C(0:N+1), D(N), I, K
      DATA C /17*0/
      C(8) = 1
      DO 30 K = 1, 6
        PRINT *, (C(I), I = 1, N)
        DO 10 I = 1, N
   10   D(I) = MOD(C(I - 1) + C(I + 1), 2)
        DO 20 I = 1, N
   20   C(I) = D(I)
   30 CONTINUE
      END
