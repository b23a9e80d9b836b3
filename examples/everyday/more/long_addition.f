      PROGRAM BIGADD
C     Adds long numbers by their digits, the last digit first.
      INTEGER N
      PARAMETER (N = 12)
      INTEGER A(N), B(N), S(N), I
      DATA A /9, 9, 9, 9, 9, 9, 9, 9, 4*0/
      DATA B /1, 2, 3, 9*0/
      CALL ADD(A, B, S, N)
      PRINT *, (S(I), I = N, 1, -1)
      END
      SUBROUTINE ADD(A, B, S, N)
      INTEGER N, A(N), B(N), S(N), CARRY, I, D
      CARRY = 0
      DO 10 I = 1, N
        D = A(I) + B(I) + CARRY
        S(I) = MOD(D, 10)
        CARRY = D/10
   10 CONTINUE
      END
