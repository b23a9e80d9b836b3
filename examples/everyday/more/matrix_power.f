      PROGRAM MPOWER
C     Fibonacci numbers by powers of a matrix.
      INTEGER F(2,2), P(2,2), T(2,2), N, I, J
      DATA F /1, 1, 1, 0/, P /1, 0, 0, 1/
      N = 30
   10 IF (N .GT. 0) THEN
        IF (MOD(N, 2) .EQ. 1) THEN
          CALL MUL(P, F, T)
          DO 20 I = 1, 2
          DO 20 J = 1, 2
   20     P(I,J) = T(I,J)
        END IF
        CALL MUL(F, F, T)
        DO 30 I = 1, 2
        DO 30 J = 1, 2
   30   F(I,J) = MOD(T(I,J), 10000000)
        N = N / 2
        GO TO 10
      END IF
      PRINT *, P(1,2)
      END
      SUBROUTINE MUL(A, B, C)
      INTEGER A(2,2), B(2,2), C(2,2)
      DO 10 I = 1, 2
      DO 10 J = 1, 2
      C(I,J) = A(I,1)*B(1,J) + A(I,2)*B(2,J)
   10 CONTINUE
      END
