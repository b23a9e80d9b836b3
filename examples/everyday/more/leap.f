      program leap_years
      integer years(4), k
      logical leap
      data years /1900, 1996, 2000, 2023/
      do k = 1, 4
        if (leap(years(k))) then
          print *, years(k), ' is a leap year'
        else
          print *, years(k), ' is not'
        end if
      end do
      end
      logical function leap(y)
      integer y
      leap = mod(y, 4) .eq. 0 .and. (mod(y, 100) .ne. 0 .or.
     &       mod(y, 400) .eq. 0)
      end
