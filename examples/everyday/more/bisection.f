      program cube_roots
! Whole cube roots by bisection.
      integer cube_root, i
      do i = 1, 1000, 333
        print *, i, cube_root(i)
      end do
      end
      integer function cube_root(n)
      integer n, low, high, middle
      low = 0
      high = 1000
      do while (high - low .gt. 1)
        middle = (low + high)/2
        if (middle**3 .le. n) then
          low = middle
        else
          high = middle
        end if
      end do
      cube_root = low
      end
