      program insert
      integer n, i, j, key
      parameter (n = 9)
      integer a(0:n)
      data (a(i), i = 1, n) /31, 41, 59, 26, 53, 58, 97, 93, 23/
      do i = 2, n
        key = a(i)
        a(0) = key
        j = i - 1
        do while (a(j) .gt. key)
          a(j + 1) = a(j)
          j = j - 1
        end do
        a(j + 1) = key
      end do
      print *, (a(i), i = 1, n)
      end
