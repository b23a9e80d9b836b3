      program gray
      integer i, g, xor_bits
      do i = 0, 7
        g = xor_bits(i, i/2)
        print *, i, g
      end do
      end
      integer function xor_bits(a, b)
      integer a, b, x, y, unit
      x = a
      y = b
      unit = 1
      xor_bits = 0
      do while (x + y .gt. 0)
        if (mod(x, 2) .ne. mod(y, 2)) xor_bits = xor_bits + unit
        x = x/2
        y = y/2
        unit = 2*unit
      end do
      end
