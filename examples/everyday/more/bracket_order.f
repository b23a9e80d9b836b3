      PROGRAM CHAIN
C     The cheapest order of a product of matrices.
      INTEGER N
      PARAMETER (N = 4)
      INTEGER P(0:N), C(N,N), I, J, K, L
      DATA P /10, 20, 5, 30, 8/
      DO 10 I = 1, N
   10 C(I,I) = 0
      DO 30 L = 2, N
      DO 30 I = 1, N - L + 1
        J = I + L - 1
        C(I,J) = 1000000
        DO 20 K = I, J - 1
          C(I,J) = MIN(C(I,J), C(I,K) + C(K+1,J) + P(I-1)*P(K)*P(J))
   20   CONTINUE
   30 CONTINUE
      PRINT *, C(1,N)
      END
