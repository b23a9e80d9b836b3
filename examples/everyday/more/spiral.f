      program spiral
      integer n
      parameter (n = 4)
      integer a(n, n), x, y, dx, dy, k, t
      data a /16*0/
      x = 1
      y = 0
      dx = 0
      dy = 1
      do k = 1, n*n
   10   if (x + dx .lt. 1 .or. x + dx .gt. n) go to 20
        if (y + dy .lt. 1 .or. y + dy .gt. n) go to 20
        if (a(x + dx, y + dy) .ne. 0) go to 20
        x = x + dx
        y = y + dy
        a(x, y) = k
        go to 30
   20   t = dx
        dx = dy
        dy = -t
        go to 10
   30   continue
      end do
      do x = 1, n
        print *, (a(x, y), y = 1, n)
      end do
      end
