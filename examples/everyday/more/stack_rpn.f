      program rpn
! Evaluates an expression in postfix form: -1 is +, -2 is -, -3 is *.
      integer code(7), stack(10), top, i
      data code /3, 4, -1, 5, 2, -2, -3/
      top = 0
      do i = 1, 7
        if (code(i) .ge. 0) then
          top = top + 1
          stack(top) = code(i)
        else
          top = top - 1
          go to (10, 20, 30), -code(i)
   10     stack(top) = stack(top) + stack(top + 1)
          go to 40
   20     stack(top) = stack(top) - stack(top + 1)
          go to 40
   30     stack(top) = stack(top)*stack(top + 1)
   40     continue
        end if
      end do
      print *, stack(1)
      end
