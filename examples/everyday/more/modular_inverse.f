      program inverses
      integer m
      parameter (m = 11)
      integer x, y, g
      do k = 1, m - 1
        call extended(k, m, g, x, y)
        print *, k, mod(x + m, m)
      end do
      end
      subroutine extended(a, b, g, x, y)
! g = a*x + b*y is the greatest common divisor of a and b.
      integer a, b, g, x, y, r, q, s, t, u, v
      g = a
      r = b
      x = 1
      y = 0
      s = 0
      t = 1
      do while (r .ne. 0)
        q = g/r
        u = g - q*r
        g = r
        r = u
        u = x - q*s
        x = s
        s = u
        v = y - q*t
        y = t
        t = v
      end do
      end
