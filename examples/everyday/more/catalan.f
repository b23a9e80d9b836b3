      program catalan
      integer most
      parameter (most = 10)
      integer c(0:most), i, j
      c(0) = 1
      do i = 1, most
        c(i) = 0
        do j = 0, i - 1
          c(i) = c(i) + c(j)*c(i - 1 - j)
        end do
      end do
      print *, c
      end
