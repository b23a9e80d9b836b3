      PROGRAM SADDLE
      INTEGER A(3,3)
      LOGICAL ROWMIN, COLMAX
      DATA A /4, 1, 7, 5, 2, 8, 6, 3, 9/
      DO 10 I = 1, 3
      DO 10 J = 1, 3
   10 IF (ROWMIN(A, I, J) .AND. COLMAX(A, I, J)) PRINT *, I, J, A(I,J)
      END
      LOGICAL FUNCTION ROWMIN(A, I, J)
      INTEGER A(3,3)
      ROWMIN = .TRUE.
      DO 10 K = 1, 3
   10 IF (A(I,K) .LT. A(I,J)) ROWMIN = .FALSE.
      END
      LOGICAL FUNCTION COLMAX(A, I, J)
      INTEGER A(3,3)
      COLMAX = .TRUE.
      DO 10 K = 1, 3
   10 IF (A(K,J) .GT. A(I,J)) COLMAX = .FALSE.
      END
