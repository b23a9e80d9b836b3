      PROGRAM FACTOR
      INTEGER N, D
      N = 5040
      D = 2
   10 IF (D*D .GT. N) GO TO 30
   20 IF (MOD(N, D) .EQ. 0) THEN
        PRINT *, D
        N = N/D
        GO TO 20
      END IF
      D = D + 1
      GO TO 10
   30 IF (N .GT. 1) PRINT *, N
      STOP
      END
