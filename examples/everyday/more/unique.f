      program unique
      integer a(10), n, i
      data a /1, 1, 2, 3, 3, 3, 4, 5, 5, 6/
      n = 10
      call squeeze(a, n)
      print *, 'left', n
      do 10 i = 1, n
 10   print *, a(i)
      end
      subroutine squeeze(a, n)
      integer a(*), n, i, k
      k = 1
      do i = 2, n
        if (a(i) .ne. a(k)) then
          k = k + 1
          a(k) = a(i)
        end if
      end do
      n = k
      end
