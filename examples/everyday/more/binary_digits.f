      program binary
      integer bits(8), n, i
      do n = 5, 200, 65
        call to_binary(n, bits, 8)
        print *, n, bits
      end do
      end
      subroutine to_binary(n, bits, size)
      integer n, size, bits(size), left, i
      left = n
      do i = size, 1, -1
        bits(i) = mod(left, 2)
        left = left/2
      end do
      end
