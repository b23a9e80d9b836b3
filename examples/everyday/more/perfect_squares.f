      program squares
      integer isqrt, i
      do i = 1, 50
        if (isqrt(i)**2 .eq. i) print *, i, ' is a square'
      end do
      end
      integer function isqrt(n)
! The square root of n, cut to a whole number, by Newton's method.
      integer n, next
      isqrt = n
      next = (n + 1) / 2
      do while (next .lt. isqrt)
        isqrt = next
        next = (isqrt + n/isqrt) / 2
      end do
      end
