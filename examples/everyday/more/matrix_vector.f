      PROGRAM MATVEC
      INTEGER A(3,3), X(3), Y(3)
      DATA A /2, 0, 1, -1, 3, 0, 4, 1, 5/, X /1, 2, 3/
      CALL MULT(A, X, Y, 3)
      PRINT *, Y
      END
      SUBROUTINE MULT(A, X, Y, N)
      INTEGER N, A(N,N), X(N), Y(N), I, J
      DO 20 I = 1, N
        Y(I) = 0
        DO 10 J = 1, N
   10   Y(I) = Y(I) + A(I,J)*X(J)
   20 CONTINUE
      END
