      PROGRAM TRACES
      INTEGER A(4,4), TRACE, I, J
      DO 10 J = 1, 4
      DO 10 I = 1, 4
   10 A(I,J) = I*J - J
      PRINT *, 'TRACE', TRACE(A, 4)
      PRINT *, ((A(I,J), J = 1, 4), I = 1, 4)
      END
      INTEGER FUNCTION TRACE(M, N)
      INTEGER N, M(N,N), I
      TRACE = 0
      DO 10 I = 1, N
   10 TRACE = TRACE + M(I,I)
      END
