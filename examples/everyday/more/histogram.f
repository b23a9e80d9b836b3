      program histogram
      integer n, bins
      parameter (n = 15, bins = 4)
      integer x(n), count(bins), i, k
      data x /3, 17, 22, 38, 9, 11, 25, 31, 30, 19, 2, 14, 27, 8, 33/
      do i = 1, bins
        count(i) = 0
      enddo
      do i = 1, n
        k = x(i)/10 + 1
        count(k) = count(k) + 1
      enddo
      do i = 1, bins
        print *, 10*(i - 1), ' to', 10*i - 1, ':', count(i)
      enddo
      end
