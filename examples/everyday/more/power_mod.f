      program powers
      integer power_mod
      print *, power_mod(2, 10, 1000), power_mod(3, 200, 13)
      print *, power_mod(7, 77, 101)
      end
      integer function power_mod(base, exponent, m)
      integer base, exponent, m, b, e
      power_mod = 1
      b = mod(base, m)
      e = exponent
      do while (e .ne. 0)
        if (mod(e, 2) .eq. 1) power_mod = mod(power_mod*b, m)
        b = mod(b*b, m)
        e = e/2
      end do
      end
