      program bubble
c     Sorts ten numbers by exchanging neighbours.
      integer n
      parameter (n = 10)
      integer a(n), i
      data a /5, 2, 9, 1, 7, 3, 8, 10, 6, 4/
      call sort(a, n)
      do i = 1, n
        print *, i, a(i)
      end do
      end

      subroutine sort(x, n)
      integer n, x(n), i, j, temp
      logical swapped
      do i = n - 1, 1, -1
        swapped = .false.
        do j = 1, i
          if (x(j) .gt. x(j+1)) then
            temp = x(j)
            x(j) = x(j+1)
            x(j+1) = temp
            swapped = .true.
          end if
        end do
        if (.not. swapped) return
      end do
      return
      end
