      subroutine summary(data, n, total, high, low)
      integer n, data(n), total, high, low, i
      total = 0
      high = data(1)
      low = data(1)
      do 100 i = 1, n
        total = total + data(i)
        high = max(high, data(i))
 100    low = min(low, data(i))
      end

      program statistics
      integer marks(7), total, high, low
      data marks /55, 71, 38, 90, 64, 82, 47/
      call summary(marks, 7, total, high, low)
      write (*,*) 'total', total, ' mean', total/7
      write (*,*) 'range', low, high
      end
