      PROGRAM CLOCK
      INTEGER T, H, M, S
      DO 10 T = 0, 90000, 12345
        CALL SPLIT(T, H, M, S)
        PRINT *, H, M, S
   10 CONTINUE
      END
      SUBROUTINE SPLIT(T, H, M, S)
      INTEGER T, H, M, S
      H = MOD(T/3600, 24)
      M = MOD(T/60, 60)
      S = MOD(T, 60)
      END
