      program greatest
      integer x, best, place, count
      best = 0
      count = 0
   10 read (*,*) x
      if (x .eq. 0) go to 20
      count = count + 1
      if (x .gt. best) then
        best = x
        place = count
      end if
      go to 10
   20 write (*,*) 'greatest', best, ' at', place
      end
