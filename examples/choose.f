C     A COMPUTED GO TO, AND AN ARITHMETIC IF.
      INTEGER K,N,P
      N=0
      P=1
      DO 50 K=1,6
      GO TO (10,20,30), MOD(K,4)
      N=N+100
      GO TO 50
   10 N=N+1
      GO TO 50
   20 P=P*2
      GO TO 50
   30 IF (N-P) 31,32,33
   31 N=N+P
      GO TO 50
   32 P=0
      GO TO 50
   33 P=P+N
   50 CONTINUE
      PRINT *,N,P
      END
