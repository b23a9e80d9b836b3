C     A SUM, AND A WORD OF TWO NAMES.
      INTEGER A(3),B
      EQUIVALENCE (A(2),B)
      DO 10 I=1,4
   10 N=N+I
      B=7
      PRINT *,A(2)
      PRINT *,N
      END
