      PROGRAM PRIM
      INTEGER N
      PARAMETER (N = 5)
      INTEGER W(N,N), COST, BEST, I, J, K, TO
      LOGICAL IN(N)
      DATA W /0,2,0,6,0, 2,0,3,8,5, 0,3,0,0,7, 6,8,0,0,9, 0,5,7,9,0/
      DATA IN /.TRUE., 4*.FALSE./
      COST = 0
      DO 20 K = 2, N
        BEST = 1000
        DO 10 I = 1, N
        DO 10 J = 1, N
        IF (IN(I) .AND. .NOT. IN(J) .AND. W(I,J) .NE. 0) THEN
          IF (W(I,J) .LT. BEST) THEN
            BEST = W(I,J)
            TO = J
          END IF
        END IF
   10   CONTINUE
        IN(TO) = .TRUE.
        COST = COST + BEST
   20 CONTINUE
      PRINT *, COST
      END
