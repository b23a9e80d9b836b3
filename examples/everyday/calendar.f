      PROGRAM CALEND
C     Days of the week by statement functions.
      INTEGER DAYS(12), M, Y
      LOGICAL LEAP
      INTEGER WEEKDY
      LEAP(IY) = MOD(IY,4).EQ.0 .AND. MOD(IY,100).NE.0
     1           .OR. MOD(IY,400).EQ.0
      WEEKDY(ID,IM,IY) = MOD(ID + (13*(IM+1))/5 + IY + IY/4 - IY/100
     1           + IY/400, 7)
      DATA DAYS /31,28,31,30,31,30,31,31,30,31,30,31/
      DO 10 Y = 1999, 2001
        IF (LEAP(Y)) THEN
          DAYS(2) = 29
        ELSE
          DAYS(2) = 28
        END IF
        PRINT *, Y, DAYS(2), WEEKDY(1, 3, Y)
   10 CONTINUE
      END
