C     A BUBBLE SORT, AND A SUM THAT NEEDN'T WAIT FOR IT.
      INTEGER A(5),S
      DATA A/5,2,8,1,9/
      DO 20 I=1,4
      DO 10 J=1,5-I
      IF (A(J).LE.A(J+1)) GO TO 10
      K=A(J)
      A(J)=A(J+1)
      A(J+1)=K
   10 CONTINUE
   20 CONTINUE
      S=0
      DO 30 L=1,5
   30 S=S+L*L
      PRINT *,S
      DO 40 M=1,5
   40 PRINT *,A(M)
      END
