      MAX=999999999
      N=MAX+MAX+147483649
      PRINT *,N
      N=N+1
      PRINT *,N
      END
