      PROGRAM COPRIM
      INTEGER GCD, COUNT, I, J, N
      PARAMETER (N = 12)
      COUNT = 0
      DO 10 I = 1, N
        DO 10 J = 1, N
          IF (GCD(I, J) .EQ. 1) COUNT = COUNT + 1
   10 CONTINUE
      PRINT *, COUNT, ' OF', N*N
      END
      INTEGER FUNCTION GCD(I, J)
      INTEGER I, J, M, N
      M = I
      N = J
   10 IF (M .EQ. N) GO TO 20
      IF (M .GT. N) M = M - N
      IF (N .GT. M) N = N - M
      GO TO 10
   20 GCD = M
      RETURN
      END
