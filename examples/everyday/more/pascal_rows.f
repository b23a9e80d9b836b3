      program pascal
      integer most
      parameter (most = 7)
      integer row(0:most), n, k
      data row /1, most*0/
      do n = 1, most
        do k = n, 1, -1
          row(k) = row(k) + row(k - 1)
        end do
        print *, row
      end do
      end
