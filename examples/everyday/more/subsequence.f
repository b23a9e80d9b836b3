      PROGRAM SUBSEQ
C     The length of the longest common subsequence.
      INTEGER M, N
      PARAMETER (M = 7, N = 6)
      INTEGER A(M), B(N), L(0:M, 0:N), I, J
      DATA A /1, 2, 3, 2, 4, 1, 2/, B /2, 4, 3, 1, 2, 1/
      DO 10 I = 0, M
   10 L(I, 0) = 0
      DO 20 J = 0, N
   20 L(0, J) = 0
      DO 30 I = 1, M
      DO 30 J = 1, N
      IF (A(I) .EQ. B(J)) THEN
        L(I, J) = L(I - 1, J - 1) + 1
      ELSE
        L(I, J) = MAX(L(I - 1, J), L(I, J - 1))
      END IF
   30 CONTINUE
      PRINT *, L(M, N)
      END
