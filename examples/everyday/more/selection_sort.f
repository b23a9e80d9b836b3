      PROGRAM SELECT
      INTEGER A(8), I
      DATA A /42, 17, 8, 99, 23, 4, 16, 15/
      CALL SORT(A, 8)
      PRINT *, (A(I), I = 1, 8)
      END
      SUBROUTINE SORT(A, N)
      INTEGER N, A(N), I, J, LEAST, TEMP
      DO 20 I = 1, N - 1
        LEAST = I
        DO 10 J = I + 1, N
          IF (A(J) .LT. A(LEAST)) LEAST = J
   10   CONTINUE
        TEMP = A(I)
        A(I) = A(LEAST)
        A(LEAST) = TEMP
   20 CONTINUE
      RETURN
      END
