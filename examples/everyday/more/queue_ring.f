      PROGRAM RING
      INTEGER SIZE
      PARAMETER (SIZE = 4)
      INTEGER Q(0:SIZE-1), HEAD, COUNT, I, X
      LOGICAL OK
      COMMON /QUEUE/ Q, HEAD, COUNT
      DATA HEAD, COUNT /0, 0/
      DO 10 I = 1, 6
        CALL PUT(I*I, OK)
        IF (.NOT. OK) PRINT *, 'FULL AT', I
   10 CONTINUE
      DO 20 I = 1, 5
        CALL GET(X, OK)
        IF (OK) THEN
          PRINT *, X
        ELSE
          PRINT *, 'EMPTY'
        END IF
   20 CONTINUE
      END
      SUBROUTINE PUT(X, OK)
      INTEGER SIZE
      PARAMETER (SIZE = 4)
      INTEGER Q(0:SIZE-1), HEAD, COUNT, X
      LOGICAL OK
      COMMON /QUEUE/ Q, HEAD, COUNT
      OK = COUNT .LT. SIZE
      IF (.NOT. OK) RETURN
      Q(MOD(HEAD + COUNT, SIZE)) = X
      COUNT = COUNT + 1
      END
      SUBROUTINE GET(X, OK)
      INTEGER SIZE
      PARAMETER (SIZE = 4)
      INTEGER Q(0:SIZE-1), HEAD, COUNT, X
      LOGICAL OK
      COMMON /QUEUE/ Q, HEAD, COUNT
      OK = COUNT .GT. 0
      IF (OK) THEN
        X = Q(HEAD)
        HEAD = MOD(HEAD + 1, SIZE)
        COUNT = COUNT - 1
      END IF
      END
