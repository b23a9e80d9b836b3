      PROGRAM HAPPY
      INTEGER N, NEXT, SLOW, FAST
      DO 20 N = 1, 20
        SLOW = N
        FAST = NEXT(N)
   10   IF (SLOW .NE. FAST) THEN
          SLOW = NEXT(SLOW)
          FAST = NEXT(NEXT(FAST))
          GO TO 10
        END IF
        IF (SLOW .EQ. 1) PRINT *, N
   20 CONTINUE
      END
      INTEGER FUNCTION NEXT(N)
      INTEGER N, K, D
      K = N
      NEXT = 0
   10 IF (K .GT. 0) THEN
        D = MOD(K, 10)
        NEXT = NEXT + D*D
        K = K/10
        GO TO 10
      END IF
      END
