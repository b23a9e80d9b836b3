      PROGRAM REVERS
      INTEGER A(5), I
      DATA (A(I), I = 1, 5) /10, 20, 30, 40, 50/
      DO 10 I = 1, 5/2
   10 CALL SWAP(A(I), A(6 - I))
      WRITE (*,*) A
      END
      SUBROUTINE SWAP(X, Y)
      INTEGER X, Y, T
      T = X
      X = Y
      Y = T
      RETURN
      END
