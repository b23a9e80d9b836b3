      program quick
! Quicksort with a stack of its own.
      integer n
      parameter (n = 12)
      integer a(n), low(20), high(20), top, l, r, i, j, pivot
      data a /9, 3, 12, 7, 1, 11, 5, 8, 2, 10, 6, 4/
      top = 1
      low(1) = 1
      high(1) = n
      do while (top .gt. 0)
        l = low(top)
        r = high(top)
        top = top - 1
        if (l .lt. r) then
          pivot = a((l + r)/2)
          i = l
          j = r
          do while (i .le. j)
            do while (a(i) .lt. pivot)
              i = i + 1
            end do
            do while (a(j) .gt. pivot)
              j = j - 1
            end do
            if (i .le. j) then
              call swap(a(i), a(j))
              i = i + 1
              j = j - 1
            end if
          end do
          call push(low, high, top, l, j)
          call push(low, high, top, i, r)
        end if
      end do
      print *, a
      end
      subroutine swap(x, y)
      integer x, y, t
      t = x
      x = y
      y = t
      end
      subroutine push(low, high, top, l, r)
      integer low(20), high(20), top, l, r
      top = top + 1
      low(top) = l
      high(top) = r
      end
