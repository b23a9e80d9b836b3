      program digit_sums
      integer i, digit_sum, reversed
      do 10 i = 90, 110, 4
   10 print *, i, digit_sum(i), reversed(i)
      end
      integer function digit_sum(n)
      integer n, left
      left = n
      digit_sum = 0
      do while (left .gt. 0)
        digit_sum = digit_sum + mod(left, 10)
        left = left/10
      end do
      end
      integer function reversed(n)
      integer n, left
      left = n
      reversed = 0
      do while (left .gt. 0)
        reversed = 10*reversed + mod(left, 10)
        left = left/10
      end do
      end
