C     N IS 3 WHEREVER IT IS READ, AND I+J IS DONE ONCE.
      INTEGER I,J,K,N
      N=3
      READ *,I,J
      IF (N.GT.2) GO TO 10
      PRINT *,N
   10 K=(I+J)*N
      IF (K.GT.N*4) K=I+J
      PRINT *,K,I+J,I/J
      END
