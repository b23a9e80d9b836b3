      program rotations
      integer n
      parameter (n = 6)
      integer a(n), i
      data a /1, 2, 3, 4, 5, 6/
      do i = 1, 3
        call rotate(a, n, i)
        print *, a
      end do
      end
      subroutine rotate(a, n, by)
      integer n, a(n), by, k, j, first
      do k = 1, by
        first = a(1)
        do j = 1, n - 1
          a(j) = a(j + 1)
        end do
        a(n) = first
      end do
      end
