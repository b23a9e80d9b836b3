      program magic
! A magic square of odd order by the siamese method.
      integer n
      parameter (n = 5)
      integer square(n, n), row, col, k, i, j, sum
      row = 1
      col = n/2 + 1
      do k = 1, n*n
        square(row, col) = k
        if (mod(k, n) .eq. 0) then
          row = row + 1
        else
          row = row - 1
          col = col + 1
        end if
        if (row .lt. 1) row = n
        if (row .gt. n) row = 1
        if (col .gt. n) col = 1
      end do
      do i = 1, n
        print *, (square(i, j), j = 1, n)
      end do
      sum = 0
      do i = 1, n
        sum = sum + square(i, i)
      end do
      print *, 'diagonal', sum
      end
