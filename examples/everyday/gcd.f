      program euclid
! Greatest common divisors by Euclid's algorithm.
      integer gcd
      external gcd
      print *, gcd(1071, 462)
      print *, gcd(17, 5) + gcd(100, 75)
      end

      integer function gcd(m, n)
      integer m, n, a, b, t
      a = m
      b = n
      do while (b .ne. 0)
        t = mod(a, b)
        a = b
        b = t
      end do
      gcd = a
      return
      end
