C     HOW OFTEN EACH OF THE NUMBERS 1 TO 5 IS READ.
      INTEGER A(5)
      READ *,N
      DO 10 I=1,N
      READ *,K
   10 A(K)=A(K)+1
      PRINT *,A(1),A(2),A(3),A(4),A(5)
      END
