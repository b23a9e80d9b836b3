      program permutations
! The permutations of 1, 2, 3 in order.
      integer n
      parameter (n = 3)
      integer p(n), i
      logical more
      do i = 1, n
        p(i) = i
      end do
      more = .true.
      do while (more)
        print *, p
        call next(p, n, more)
      end do
      end
      subroutine next(p, n, more)
      integer n, p(n), i, j, k
      logical more
      i = n - 1
   10 if (i .gt. 0) then
        if (p(i) .ge. p(i + 1)) then
          i = i - 1
          go to 10
        end if
      end if
      more = i .gt. 0
      if (.not. more) return
      j = n
   20 if (p(j) .lt. p(i)) then
        j = j - 1
        go to 20
      end if
      call swap(p(i), p(j))
      k = n
      do j = i + 1, n
        if (j .ge. k) return
        call swap(p(j), p(k))
        k = k - 1
      end do
      end
      subroutine swap(a, b)
      integer a, b, t
      t = a
      a = b
      b = t
      end
