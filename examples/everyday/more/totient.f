      program totients
      integer phi, gcd
      external phi, gcd
      print *, (phi(i), i = 1, 12)
      end
      integer function phi(n)
      integer gcd
      phi = 0
      do i = 1, n
        if (gcd(i, n) .eq. 1) phi = phi + 1
      end do
      end
      integer function gcd(m, n)
      integer a, b
      a = m
      b = n
      do while (b .gt. 0)
        k = mod(a, b)
        a = b
        b = k
      end do
      gcd = a
      end
