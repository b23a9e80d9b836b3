      PROGRAM DIJKST
      INTEGER N, FAR
      PARAMETER (N = 5, FAR = 99999)
      INTEGER W(N, N), DIST(N), I, J, NEAR
      LOGICAL DONE(N)
      DATA W /0, 4, 1, 0, 0,  4, 0, 2, 5, 0,  1, 2, 0, 8, 10,
     1        0, 5, 8, 0, 2,  0, 0, 10, 2, 0/
      DATA DONE /N*.FALSE./
      DO 10 I = 1, N
   10 DIST(I) = FAR
      DIST(1) = 0
      DO 40 I = 1, N
        NEAR = 0
        DO 20 J = 1, N
          IF (DONE(J)) GO TO 20
          IF (NEAR .EQ. 0) THEN
            NEAR = J
          ELSE IF (DIST(J) .LT. DIST(NEAR)) THEN
            NEAR = J
          END IF
   20   CONTINUE
        DONE(NEAR) = .TRUE.
        DO 30 J = 1, N
          IF (W(NEAR, J) .GT. 0) THEN
            DIST(J) = MIN(DIST(J), DIST(NEAR) + W(NEAR, J))
          END IF
   30   CONTINUE
   40 CONTINUE
      PRINT *, DIST
      END
