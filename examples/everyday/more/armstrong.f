      program armstrong
      integer n, a, b, c
      do a = 1, 9
        do b = 0, 9
          do c = 0, 9
            n = 100*a + 10*b + c
            if (n .eq. a**3 + b**3 + c**3) print *, n
          end do
        end do
      end do
      end
