      PROGRAM TWINS
      INTEGER N, I
      PARAMETER (N = 60)
      LOGICAL PRIME(N)
      DATA PRIME /.FALSE., 59*.TRUE./
      DO 20 I = 2, N
        IF (.NOT. PRIME(I)) GO TO 20
        DO 10 J = I*I, N, I
   10   PRIME(J) = .FALSE.
   20 CONTINUE
      DO 30 I = 3, N - 2, 2
   30 IF (PRIME(I) .AND. PRIME(I + 2)) PRINT *, I, I + 2
      END
