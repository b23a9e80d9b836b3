      PROGRAM PARTS
      INTEGER P(0:20), I, J
      DATA P /1, 20*0/
      DO 10 I = 1, 20
      DO 10 J = I, 20
   10 P(J) = P(J) + P(J - I)
      PRINT *, P(5), P(10), P(20)
      END
