      program big_factorial
      integer size
      parameter (size = 25)
      integer digit(size), i
      data digit /1, 24*0/
      do i = 2, 20
        call multiply(digit, size, i)
      end do
      print *, (digit(i), i = size, 1, -1)
      end
      subroutine multiply(digit, size, factor)
      integer size, digit(*), factor, carry, i, d
      carry = 0
      do i = 1, size
        d = digit(i)*factor + carry
        digit(i) = mod(d, 10)
        carry = d/10
      end do
      end
