      PROGRAM BINOM
      INTEGER CHOOSE, N, K
      DO 20 N = 0, 6, 2
        DO 10 K = 0, N
   10   PRINT *, N, K, CHOOSE(N, K)
   20 CONTINUE
      END
      INTEGER FUNCTION CHOOSE(N, K)
      INTEGER N, K, I
      CHOOSE = 1
      DO 10 I = 1, K
   10 CHOOSE = CHOOSE*(N - K + I)/I
      END
