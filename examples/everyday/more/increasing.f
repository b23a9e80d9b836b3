      program increasing
      integer n
      parameter (n = 10)
      integer a(n), best(n), longest, i, j
      data a /10, 22, 9, 33, 21, 50, 41, 60, 80, 1/
      longest = 0
      do i = 1, n
        best(i) = 1
        do j = 1, i - 1
          if (a(j) .lt. a(i)) best(i) = max(best(i), best(j) + 1)
        end do
        longest = max(longest, best(i))
      end do
      print *, longest, best
      end
