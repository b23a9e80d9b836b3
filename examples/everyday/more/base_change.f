      PROGRAM BASES
      INTEGER BASE, N, LEFT, VALUE, POWER
      N = 1234
      DO 20 BASE = 2, 9
        IF (BASE .EQ. 2) GO TO 20
        LEFT = N
        VALUE = 0
        POWER = 1
   10   IF (LEFT .GT. 0) THEN
          VALUE = VALUE + MOD(LEFT, BASE)*POWER
          POWER = POWER*10
          LEFT = LEFT/BASE
          GO TO 10
        ENDIF
        PRINT *, BASE, VALUE
   20 CONTINUE
      END
