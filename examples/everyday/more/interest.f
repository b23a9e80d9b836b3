      program interest
! A loan in cents, paid back month by month.
      integer loan, rate, payment, month, paid
      parameter (rate = 12, payment = 20000)
      loan = 100000
      month = 0
      paid = 0
      do while (loan .gt. 0)
        month = month + 1
        loan = loan + loan*rate/1200
        if (loan .lt. payment) then
          paid = paid + loan
          loan = 0
        else
          paid = paid + payment
          loan = loan - payment
        end if
        print *, month, loan
      end do
      print *, 'paid', paid
      end
