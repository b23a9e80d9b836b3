      program knapsack
! The best value that fits in a sack, for each capacity.
      implicit none
      integer items, capacity
      parameter (items = 5, capacity = 12)
      integer weight(items), value(items)
      integer best(0:capacity)
      integer i, c
      data weight /2, 3, 4, 5, 9/
      data value  /3, 4, 8, 8, 10/
      do c = 0, capacity
        best(c) = 0
      enddo
      do i = 1, items
        do c = capacity, weight(i), -1
          best(c) = max(best(c), best(c-weight(i)) + value(i))
        enddo
      enddo
      print *, 'best', best(capacity)
      print *, best
      end program knapsack
