      program stack_machine
! Evaluates 3 4 + 5 * 2 - on a stack of integers kept in a common block.
      integer code(7), i, last, pop
      data code /3, 4, -1, 5, -3, 2, -2/
      do i = 1, 7
        if (code(i) .ge. 0) then
          call push(code(i))
        else if (code(i) .eq. -1) then
          call push(pop(0) + pop(0))
        else if (code(i) .eq. -2) then
          last = pop(0)
          call push(pop(0) - last)
        else
          call push(pop(0) * pop(0))
        end if
      end do
      print *, pop(0)
      end

      block data
      integer depth, cells(20)
      common /machine/ depth, cells
      data depth /0/
      end

      subroutine push(value)
      integer value, depth, cells(20)
      common /machine/ depth, cells
      depth = depth + 1
      cells(depth) = value
      end

      integer function pop(unused)
      integer unused, depth, cells(20)
      common /machine/ depth, cells
      pop = cells(depth)
      depth = depth - 1
      end
