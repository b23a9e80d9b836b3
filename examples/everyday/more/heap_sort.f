      PROGRAM HEAP
      INTEGER N
      PARAMETER (N = 10)
      INTEGER A(N), I, T
      DATA A /4, 10, 3, 5, 1, 8, 7, 2, 9, 6/
      DO 10 I = N/2, 1, -1
   10 CALL SIFT(A, I, N)
      DO 20 I = N, 2, -1
        T = A(1)
        A(1) = A(I)
        A(I) = T
        CALL SIFT(A, 1, I - 1)
   20 CONTINUE
      PRINT *, A
      END
      SUBROUTINE SIFT(A, FIRST, LAST)
      INTEGER FIRST, LAST, A(*), ROOT, CHILD, T
      ROOT = FIRST
   10 CHILD = 2*ROOT
      IF (CHILD .GT. LAST) RETURN
      IF (CHILD .LT. LAST) THEN
        IF (A(CHILD + 1) .GT. A(CHILD)) CHILD = CHILD + 1
      END IF
      IF (A(ROOT) .GE. A(CHILD)) RETURN
      T = A(ROOT)
      A(ROOT) = A(CHILD)
      A(CHILD) = T
      ROOT = CHILD
      GO TO 10
      END
