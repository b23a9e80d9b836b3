      program day_numbers
      integer day_in_year
      print *, day_in_year(1, 3, 2023), day_in_year(1, 3, 2024)
      print *, day_in_year(31, 12, 2024)
      end
      integer function day_in_year(day, month, year)
      integer day, month, year, days(12), m, y
      logical leap
      data days /31, 28, 31, 30, 31, 30, 31, 31, 30, 31, 30, 31/
      leap(y) = mod(y, 4) .eq. 0
      day_in_year = day
      do m = 1, month - 1
        day_in_year = day_in_year + days(m)
        if (m .eq. 2 .and. leap(year)) day_in_year = day_in_year + 1
      end do
      end
