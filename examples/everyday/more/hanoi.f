      program hanoi
! The towers of Hanoi, by a stack of moves to make.
      integer depth
      parameter (depth = 40)
      integer disks(depth), from(depth), to(depth), top, moves
      integer n, f, t
      moves = 0
      top = 1
      disks(1) = 3
      from(1) = 1
      to(1) = 3
   10 if (top .eq. 0) go to 20
        n = disks(top)
        f = from(top)
        t = to(top)
        top = top - 1
        if (n .eq. 1) then
          moves = moves + 1
          print *, 'move from', f, ' to', t
        else
          call push(disks, from, to, top, n - 1, 6 - f - t, t)
          call push(disks, from, to, top, 1, f, t)
          call push(disks, from, to, top, n - 1, f, 6 - f - t)
        end if
      go to 10
   20 print *, moves, ' moves'
      end
      subroutine push(disks, from, to, top, n, f, t)
      integer disks(*), from(*), to(*), top, n, f, t
      top = top + 1
      disks(top) = n
      from(top) = f
      to(top) = t
      end
