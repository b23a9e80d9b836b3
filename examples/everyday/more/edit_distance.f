      program edit
      integer m, n
      parameter (m = 6, n = 7)
      integer a(m), b(n), d(0:m, 0:n), cost, i, j
      data a /11, 9, 20, 20, 5, 14/, b /19, 9, 20, 20, 9, 14, 7/
      do i = 0, m
        d(i, 0) = i
      end do
      do j = 0, n
        d(0, j) = j
      end do
      do i = 1, m
        do j = 1, n
          cost = 1
          if (a(i) .eq. b(j)) cost = 0
          d(i, j) = min(d(i-1, j) + 1, d(i, j-1) + 1,
     &                  d(i-1, j-1) + cost)
        end do
      end do
      print *, d(m, n)
      end
