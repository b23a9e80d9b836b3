      PROGRAM PALIN
      INTEGER I, J, N, BEST
      LOGICAL ISPAL
      BEST = 0
      DO 20 I = 11, 99
      DO 20 J = I, 99
      N = I*J
      IF (N .GT. BEST) THEN
        IF (ISPAL(N)) BEST = N
      END IF
   20 CONTINUE
      PRINT *, BEST
      END
      LOGICAL FUNCTION ISPAL(N)
      INTEGER N, K, R
      K = N
      R = 0
   10 IF (K .EQ. 0) GO TO 20
      R = R*10 + MOD(K, 10)
      K = K/10
      GO TO 10
   20 ISPAL = R .EQ. N
      END
