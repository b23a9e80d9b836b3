      program floyd
! Shortest ways between four towns.
      integer n, far
      parameter (n = 4, far = 9999)
      integer d(n, n), i, j, k
      data d /0, far, 2, far, 3, 0, far, 7, far, 1, 0, far,
     &        far, 4, 5, 0/
      do k = 1, n
        do i = 1, n
          do j = 1, n
            if (d(i, k) + d(k, j) .lt. d(i, j)) then
              d(i, j) = d(i, k) + d(k, j)
            end if
          end do
        end do
      end do
      do i = 1, n
        print *, (d(i, j), j = 1, n)
      end do
      end
