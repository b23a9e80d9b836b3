      program goldbach
      logical prime
      do 20 n = 4, 30, 2
        do 10 i = 2, n/2
          if (prime(i) .and. prime(n - i)) then
            print *, n, i, n - i
            go to 20
          end if
   10   continue
   20 continue
      end
      logical function prime(n)
      prime = n .ge. 2
      do 10 k = 2, n - 1
   10 if (mod(n, k) .eq. 0) prime = .false.
      end
