      PROGRAM SUBSET
C     Subsets of four weights with a given sum, by counting in binary.
      INTEGER W(4), M, BITS, SUM, I, COUNT
      DATA W /3, 5, 2, 7/, COUNT /0/
      DO 20 M = 0, 15
        BITS = M
        SUM = 0
        DO 10 I = 1, 4
          IF (MOD(BITS, 2) .EQ. 1) SUM = SUM + W(I)
          BITS = BITS/2
   10   CONTINUE
        IF (SUM .EQ. 10) THEN
          COUNT = COUNT + 1
          PRINT *, M
        END IF
   20 CONTINUE
      PRINT *, 'FOUND', COUNT
      END
