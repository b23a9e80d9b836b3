      program change
! The number of ways to pay an amount.
      integer amount, kinds
      parameter (amount = 50, kinds = 5)
      integer coins(kinds), ways(0:amount), i, j
      data coins /1, 2, 5, 10, 20/, ways /1, amount*0/
      do i = 1, kinds
        do j = coins(i), amount
          ways(j) = ways(j) + ways(j - coins(i))
        end do
      end do
      print *, ways(5), ways(10), ways(amount)
      end
