      program abundant
      integer limit
      parameter (limit = 60)
      integer sums(limit), i, j
      data sums /limit*0/
      do i = 1, limit/2
        do j = 2*i, limit, i
          sums(j) = sums(j) + i
        end do
      end do
      do i = 1, limit
        if (sums(i) .gt. i) print *, i, sums(i)
      end do
      end
