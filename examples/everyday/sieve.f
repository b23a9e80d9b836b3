C     The primes below a bound, by the sieve of Eratosthenes.
      PROGRAM SIEVE
      INTEGER NMAX
      PARAMETER (NMAX = 60)
      LOGICAL COMPOS(NMAX)
      INTEGER I, J, COUNT
      DO 10 I = 1, NMAX
        COMPOS(I) = .FALSE.
   10 CONTINUE
      COUNT = 0
      DO 30 I = 2, NMAX
        IF (COMPOS(I)) GO TO 30
        COUNT = COUNT + 1
        PRINT *, I
        DO 20 J = I*I, NMAX, I
          COMPOS(J) = .TRUE.
   20   CONTINUE
   30 CONTINUE
      PRINT *, 'PRIMES', COUNT
      END
