      PROGRAM BITCNT
      INTEGER BITS, I
      DO 10 I = 1, 255, 50
   10 PRINT *, I, BITS(I)
      END
      INTEGER FUNCTION BITS(N)
      K = N
      BITS = 0
   10 IF (K) 20, 30, 20
   20 BITS = BITS + MOD(K, 2)
      K = K/2
      GO TO 10
   30 RETURN
      END
