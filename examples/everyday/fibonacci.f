      program fibonacci_numbers
      integer this_one, next_one, sum, count
      this_one = 0
      next_one = 1
      count = 0
      do while (this_one .lt. 1000)   ! all below a thousand
        print *, this_one
        sum = this_one + next_one
        this_one = next_one
        next_one = sum
        count = count + 1
      end do
      print *, 'count:', count
      stop
      end
