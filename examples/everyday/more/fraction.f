      program fractions
! Adds fractions and keeps them in lowest terms.
      integer num, den
      num = 0
      den = 1
      do i = 1, 6
        call add(num, den, 1, i)
        print *, num, ' /', den
      end do
      end
      subroutine add(a, b, c, d)
      integer a, b, c, d, g, gcd
      a = a*d + c*b
      b = b*d
      g = gcd(a, b)
      a = a/g
      b = b/g
      end
      integer function gcd(m, n)
      integer m, n, r, k
      gcd = m
      k = n
      do while (k .ne. 0)
        r = mod(gcd, k)
        gcd = k
        k = r
      end do
      end
