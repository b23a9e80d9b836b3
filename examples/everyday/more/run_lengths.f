      program runs
! Run lengths of a list of numbers.
      integer n
      parameter (n = 12)
      integer list(n), start, stop_at
      data list /3*7, 2, 2*5, 4*1, 2*9/
      start = 1
      do while (start .le. n)
        stop_at = start
   10   if (stop_at .lt. n) then
          if (list(stop_at + 1) .eq. list(start)) then
            stop_at = stop_at + 1
            go to 10
          end if
        end if
        print *, list(start), ' times', stop_at - start + 1
        start = stop_at + 1
      end do
      end
