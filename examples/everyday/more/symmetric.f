      program symmetric
      integer a(3, 3), b(2, 2)
      logical same
      data a /1, 2, 3, 2, 4, 5, 3, 5, 6/, b /1, 0, 2, 1/
      print *, same(a, 3), same(b, 2)
      end
      logical function same(m, n)
      integer n, m(n, n)
      same = .true.
      do i = 1, n
        do j = 1, i - 1
          if (m(i, j) .ne. m(j, i)) same = .false.
        end do
      end do
      end
