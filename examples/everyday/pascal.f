      program pascal
! Rows of Pascal's triangle.
      integer rows
      parameter (rows = 6)
      integer c(rows), n, k
      do n = 1, rows
        c(n) = 1
        do k = n - 1, 2, -1
          c(k) = c(k) + c(k-1)
        end do
        print *, (c(k), k = 1, rows)
      end do
      end
