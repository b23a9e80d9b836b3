C     THREE SUBROUTINES.
      INTEGER A,B,G
      A=84
      B=36
      CALL GCD(A,B,G)
      CALL TWICE(G)
      CALL SHOW(G)
      END
      SUBROUTINE GCD(M,N,G)
      INTEGER M,N,G,R
   10 IF (N .EQ. 0) GO TO 20
      R=MOD(M,N)
      M=N
      N=R
      GO TO 10
   20 G=M
      RETURN
      END
      SUBROUTINE TWICE(N)
      INTEGER N
      N=N*2
      RETURN
      END
      SUBROUTINE SHOW(N)
      INTEGER N
      PRINT *,N
      RETURN
      END
