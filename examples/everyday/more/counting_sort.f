      PROGRAM COUNTS
      INTEGER N, M, I, J, K
      PARAMETER (N = 14, M = 5)
      INTEGER A(N), COUNT(0:M)
      DATA A /3, 1, 4, 1, 5, 2, 2, 0, 5, 3, 3, 1, 4, 0/
      DATA COUNT /6*0/
      DO 10 I = 1, N
   10 COUNT(A(I)) = COUNT(A(I)) + 1
      K = 0
      DO 30 I = 0, M
        DO 20 J = 1, COUNT(I)
          K = K + 1
          A(K) = I
   20   CONTINUE
   30 CONTINUE
      PRINT *, A
      PRINT *, COUNT
      END
