      program merging
! Merges two sorted lists.
      integer a(5), b(4), c(9)
      data a /1, 4, 6, 8, 12/, b /2, 4, 9, 15/
      call merge(a, 5, b, 4, c)
      print *, c
      end
      subroutine merge(x, nx, y, ny, z)
      integer nx, ny, x(nx), y(ny), z(*)
      integer i, j, k
      i = 1
      j = 1
      do k = 1, nx + ny
        if (j .gt. ny) then
          z(k) = x(i)
          i = i + 1
        else if (i .gt. nx) then
          z(k) = y(j)
          j = j + 1
        else if (x(i) .le. y(j)) then
          z(k) = x(i)
          i = i + 1
        else
          z(k) = y(j)
          j = j + 1
        end if
      end do
      end
