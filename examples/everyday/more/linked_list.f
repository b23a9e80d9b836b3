      program list
! A sorted list, linked by indices.
      integer most
      parameter (most = 10)
      integer value(most), next(most), first, used, i
      common /cells/ value, next, first, used
      data first, used /0, 0/
      call insert(5)
      call insert(1)
      call insert(9)
      call insert(7)
      call insert(3)
      i = first
      do while (i .ne. 0)
        print *, value(i)
        i = next(i)
      end do
      end
      subroutine insert(x)
      integer most
      parameter (most = 10)
      integer value(most), next(most), first, used, x, before, here
      common /cells/ value, next, first, used
      used = used + 1
      value(used) = x
      before = 0
      here = first
   10 if (here .ne. 0) then
        if (value(here) .lt. x) then
          before = here
          here = next(here)
          go to 10
        end if
      end if
      next(used) = here
      if (before .eq. 0) then
        first = used
      else
        next(before) = used
      end if
      end
