      program life
! Conway's game of life: a glider after four rounds.
      integer n
      parameter (n = 8)
      integer board(0:n+1, 0:n+1), next(n, n), i, j, k, around
      data board /100*0/
      board(2, 3) = 1
      board(3, 4) = 1
      board(4, 2) = 1
      board(4, 3) = 1
      board(4, 4) = 1
      do k = 1, 4
        do i = 1, n
          do j = 1, n
            around = board(i-1, j-1) + board(i-1, j) + board(i-1, j+1)
     &             + board(i, j-1) + board(i, j+1)
     &             + board(i+1, j-1) + board(i+1, j) + board(i+1, j+1)
            next(i, j) = 0
            if (around .eq. 3) next(i, j) = 1
            if (around .eq. 2) next(i, j) = board(i, j)
          end do
        end do
        do i = 1, n
          do j = 1, n
            board(i, j) = next(i, j)
          end do
        end do
      end do
      do i = 1, n
        print *, (board(i, j), j = 1, n)
      end do
      end
