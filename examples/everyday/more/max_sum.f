      PROGRAM MAXSUM
      INTEGER A(9), HERE, BEST, I
      DATA A /-2, 1, -3, 4, -1, 2, 1, -5, 4/
      HERE = 0
      BEST = A(1)
      DO 10 I = 1, 9
        HERE = MAX(HERE + A(I), A(I))
        BEST = MAX0(BEST, HERE)
   10 CONTINUE
      WRITE (*,*) 'BEST SUM', BEST
      END
