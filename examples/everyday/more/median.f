      program medians
      integer a(5), b(4), median
      data a /9, 1, 5, 7, 3/, b /8, 2, 6, 4/
      print *, median(a, 5), median(b, 4)
      print *, a, b
      end
      integer function median(x, n)
      integer n, x(n), i, j, t
      do i = 2, n
        do j = i, 2, -1
          if (x(j) .lt. x(j - 1)) then
            t = x(j)
            x(j) = x(j - 1)
            x(j - 1) = t
          end if
        end do
      end do
      median = (x((n + 1)/2) + x(n/2 + 1))/2
      end
