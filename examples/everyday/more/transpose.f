      program flip
      integer rows, columns
      parameter (rows = 3, columns = 4)
      integer a(rows, columns), b(columns, rows), i, j
      do i = 1, rows
        do j = 1, columns
          a(i, j) = 10*i + j
        end do
      end do
      do i = 1, rows
        do j = 1, columns
          b(j, i) = a(i, j)
        end do
      end do
      do j = 1, columns
        print *, (b(j, i), i = 1, rows)
      end do
      end
