      program primes
! The primes below a hundred, by trial division.
      integer limit, candidate, count
      parameter (limit = 100)
      logical is_prime
      count = 0
      do candidate = 2, limit
        if (is_prime(candidate)) then
          count = count + 1
          print *, candidate
        end if
      end do
      print *, 'there are', count
      end

      logical function is_prime(n)
      integer n, d
      is_prime = .true.
      d = 2
      do while (d*d .le. n)
        if (mod(n, d) .eq. 0) then
          is_prime = .false.
          return
        end if
        d = d + 1
      end do
      end
