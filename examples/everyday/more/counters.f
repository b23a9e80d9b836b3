      program counters
      call tick(1)
      call tick(5)
      call tick(-2)
      call show
      end
      subroutine tick(by)
      integer by, count, total
      common /clock/ count, total
      count = count + 1
      total = total + by
      end
      subroutine show
      integer count, total
      common /clock/ count, total
      print *, 'ticks', count, ' total', total
      end
      block data start
      integer count, total
      common /clock/ count, total
      data count, total /0, 100/
      end
