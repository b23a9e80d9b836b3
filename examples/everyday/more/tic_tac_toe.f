      program noughts
! Who has three in a row? 1 and 2 are the players.
      integer board(9), line(3, 8), winner
      data line /1,2,3, 4,5,6, 7,8,9, 1,4,7, 2,5,8, 3,6,9, 1,5,9, 3,5,7/
      data board /1, 2, 1, 2, 1, 2, 1, 0, 2/
      winner = 0
      do k = 1, 8
        if (board(line(1, k)) .eq. board(line(2, k)) .and.
     &      board(line(2, k)) .eq. board(line(3, k))) then
          winner = board(line(1, k))
        end if
      end do
      print *, 'winner', winner
      end
