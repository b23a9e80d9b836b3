      program search
! Steps from one corner of a maze to the other.
      integer size
      parameter (size = 5)
      integer maze(size, size), steps(size, size), queue(2, size*size)
      integer head, tail, x, y, nx, ny, k, dx(4), dy(4)
      data dx /1, -1, 0, 0/, dy /0, 0, 1, -1/
      data maze /0,0,1,0,0, 1,0,1,0,1, 0,0,0,0,0, 0,1,1,1,0, 0,0,0,1,0/
      data steps /25*-1/
      head = 1
      tail = 1
      queue(1, 1) = 1
      queue(2, 1) = 1
      steps(1, 1) = 0
      do while (head .le. tail)
        x = queue(1, head)
        y = queue(2, head)
        head = head + 1
        do k = 1, 4
          nx = x + dx(k)
          ny = y + dy(k)
          if (nx .ge. 1 .and. nx .le. size) then
            if (ny .ge. 1 .and. ny .le. size) then
              if (maze(nx, ny) .eq. 0) then
                if (steps(nx, ny) .lt. 0) then
                  steps(nx, ny) = steps(x, y) + 1
                  tail = tail + 1
                  queue(1, tail) = nx
                  queue(2, tail) = ny
                end if
              end if
            end if
          end if
        end do
      end do
      print *, steps(size, size)
      end
