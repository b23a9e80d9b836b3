      PROGRAM ROADS
C Which towns are reached from which, by Warshall's method.
      INTEGER TOWNS
      PARAMETER (TOWNS = 5)
      LOGICAL R(TOWNS, TOWNS)
      INTEGER I, J, NUMBER, ROW(TOWNS)
      CALL CLEAR(R, TOWNS)
      R(1,2) = .TRUE.
      R(2,3) = .TRUE.
      R(3,1) = .TRUE.
      R(4,5) = .TRUE.
      CALL CLOSUR(R, TOWNS)
      DO 20 I = 1, TOWNS
        DO 10 J = 1, TOWNS
          ROW(J) = 0
          IF (R(I,J)) ROW(J) = 1
   10   CONTINUE
        PRINT *, I, NUMBER(R, TOWNS, I), ROW
   20 CONTINUE
      END

      SUBROUTINE CLEAR(R, N)
      INTEGER N, I, J
      LOGICAL R(N,N)
      DO 40 J = 1, N
        DO 30 I = 1, N
          R(I,J) = .FALSE.
   30   CONTINUE
   40 CONTINUE
      END

      SUBROUTINE CLOSUR(R, N)
      INTEGER N, K
      LOGICAL R(N,N)
      DO 50 K = 1, N
        CALL THROUGH(R, N, K)
   50 CONTINUE
      END

      SUBROUTINE THROUGH(R, N, K)
      INTEGER N, K, I
      LOGICAL R(N,N)
      DO 60 I = 1, N
        IF (R(I,K)) CALL JOIN(R, N, I, K)
   60 CONTINUE
      END

      SUBROUTINE JOIN(R, N, I, K)
      INTEGER N, I, K, J
      LOGICAL R(N,N)
      DO 70 J = 1, N
        R(I,J) = R(I,J) .OR. R(K,J)
   70 CONTINUE
      END

      INTEGER FUNCTION NUMBER(R, N, I)
      INTEGER N, I, J
      LOGICAL R(N,N)
      NUMBER = 0
      DO 80 J = 1, N
        IF (R(I,J)) NUMBER = NUMBER + 1
   80 CONTINUE
      END
