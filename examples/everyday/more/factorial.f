      PROGRAM FACTS
      INTEGER I, FACT
      DO 10 I = 0, 12
   10 PRINT *, I, FACT(I)
      STOP
      END
      INTEGER FUNCTION FACT(N)
      FACT = 1
      IF (N .LE. 1) RETURN
      DO 20 I = 2, N
   20 FACT = FACT * I
      RETURN
      END
