      program reach
      integer n
      parameter (n = 4)
      logical r(n, n)
      integer i, j, k
      data r /16*.false./
      r(1, 2) = .true.
      r(2, 3) = .true.
      r(3, 1) = .true.
      do k = 1, n
        do i = 1, n
          do j = 1, n
            r(i, j) = r(i, j) .or. r(i, k) .and. r(k, j)
          end do
        end do
      end do
      do i = 1, n
        print *, (r(i, j), j = 1, n)
      end do
      end
