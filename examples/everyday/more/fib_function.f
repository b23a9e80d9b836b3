      PROGRAM FIBFUN
      INTEGER FIB, I
      EXTERNAL FIB
      DO 10 I = 1, 20
        PRINT *, I, FIB(I)
   10 CONTINUE
      END
      INTEGER FUNCTION FIB(N)
      INTEGER N, OLD, NEW, I
      OLD = 0
      FIB = 1
      DO 10 I = 2, N
        NEW = OLD + FIB
        OLD = FIB
        FIB = NEW
   10 CONTINUE
      RETURN
      END
