      program machine
! A machine of four instructions: 1 load, 2 add, 3 jump if not 0, 4 stop.
      integer code(2, 5), at, sum, operand
      data code /1, 10, 2, -3, 2, 1, 3, 2, 4, 0/
      at = 1
      sum = 0
  100 operand = code(2, at)
      go to (1, 2, 3, 4), code(1, at)
    1 sum = operand
      at = at + 1
      go to 100
    2 sum = sum + operand
      at = at + 1
      print *, sum
      go to 100
    3 if (sum .gt. 0) then
        at = operand
      else
        at = at + 1
      end if
      go to 100
    4 print *, 'stopped with', sum
      end
