      PROGRAM TABLE
      INTEGER I, J
      DO 10 I = 1, 9
        PRINT *, (I*J, J = 1, 9)
   10 CONTINUE
      END
