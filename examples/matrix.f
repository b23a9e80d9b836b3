C     THE PRODUCT OF TWO MATRICES.
      INTEGER A(2,2),B(2,2),C(2,2)
      DATA A/1,2,3,4/,B/5,6,7,8/
      DO 30 I=1,2
      DO 20 J=1,2
      C(I,J)=0
      DO 10 K=1,2
   10 C(I,J)=C(I,J)+A(I,K)*B(K,J)
   20 CONTINUE
   30 CONTINUE
      DO 40 I=1,2
   40 PRINT *,C(I,1),C(I,2)
      END
