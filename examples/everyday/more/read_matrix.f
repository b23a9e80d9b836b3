      PROGRAM RMAT
      INTEGER A(10,10), M, N, I, J, S
      READ (5,*) M, N
      DO 10 I = 1, M
   10 READ (5,*) (A(I,J), J = 1, N)
      DO 30 I = 1, M
        S = 0
        DO 20 J = 1, N
   20   S = S + A(I,J)
        WRITE (6,*) 'ROW', I, ' SUM', S
   30 CONTINUE
      END
