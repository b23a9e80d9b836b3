      PROGRAM AMICAB
      INTEGER DIVSUM, I, J
      DO 10 I = 2, 300
        J = DIVSUM(I)
        IF (J .GT. I) THEN
          IF (DIVSUM(J) .EQ. I) PRINT *, I, J
        END IF
   10 CONTINUE
      END
      INTEGER FUNCTION DIVSUM(N)
      DIVSUM = 0
      DO 10 I = 1, N/2
   10 IF (MOD(N, I) .EQ. 0) DIVSUM = DIVSUM + I
      END
