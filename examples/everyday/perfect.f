      program perfect
      integer n, sumdiv
      logical isperf
      do 10 n = 2, 500
        if (isperf(n)) print *, n, sumdiv(n)
   10 continue
      end

      logical function isperf(n)
      integer n, sumdiv
      isperf = sumdiv(n) .eq. n
      end

      integer function sumdiv(n)
      integer n, d
      sumdiv = 0
      do 20 d = 1, n/2
        if (mod(n, d) .eq. 0) sumdiv = sumdiv + d
   20 continue
      end
