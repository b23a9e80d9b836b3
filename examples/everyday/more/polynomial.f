      program horner
      integer value, a(0:3)
      data a /5, -3, 0, 2/
      do i = -2, 2
        print *, i, value(a, 3, i)
      end do
      end
      integer function value(c, degree, x)
      integer degree, c(0:degree), x
      value = 0
      do k = degree, 0, -1
        value = value*x + c(k)
      end do
      end
