      PROGRAM PRODUCT
      INTEGER N
      PARAMETER (N=3)
      INTEGER A(N,N), B(N,N), C(N,N)
      INTEGER I, J
      DATA A /1,2,3,4,5,6,7,8,9/
      DATA ((B(I,J), I=1,N), J=1,N) /N*0, 6*2/
      CALL MULT(A, B, C, N)
      DO 10 I = 1, N
   10 WRITE (*,*) (C(I,J), J=1,N)
      END
C
      SUBROUTINE MULT(A, B, C, N)
      INTEGER N
      INTEGER A(N,N), B(N,N), C(N,*)
      INTEGER I, J, K
      DO 30 I = 1, N
        DO 20 J = 1, N
          C(I,J) = 0
          DO 10 K = 1, N
   10     C(I,J) = C(I,J) + A(I,K)*B(K,J)
   20   CONTINUE
   30 CONTINUE
      END
