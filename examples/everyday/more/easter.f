      program easter_days
! The date of Easter, by the method of Gauss as it is usually written.
      integer year, month, day
      do year = 2020, 2026
        call easter(year, month, day)
        print *, year, month, day
      end do
      end
      subroutine easter(y, month, day)
      integer y, month, day
      integer a, b, c, d, e, f, g, h, i, k, l, m
      a = mod(y, 19)
      b = y/100
      c = mod(y, 100)
      d = b/4
      e = mod(b, 4)
      f = (b + 8)/25
      g = (b - f + 1)/3
      h = mod(19*a + b - d - g + 15, 30)
      i = c/4
      k = mod(c, 4)
      l = mod(32 + 2*e + 2*i - h - k, 7)
      m = (a + 11*h + 22*l)/451
      month = (h + l - 7*m + 114)/31
      day = mod(h + l - 7*m + 114, 31) + 1
      end
