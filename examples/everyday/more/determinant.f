      program dets
! Determinants of matrices of three rows.
      integer a(3, 3), b(3, 3), det
      data a /1, 0, 2, -1, 5, 0, 0, 3, -9/
      data b /9*1/
      print *, det(a), det(b)
      end
      integer function det(m)
      integer m(3, 3)
      det = m(1,1)*(m(2,2)*m(3,3) - m(2,3)*m(3,2))
     &    - m(1,2)*(m(2,1)*m(3,3) - m(2,3)*m(3,1))
     &    + m(1,3)*(m(2,1)*m(3,2) - m(2,2)*m(3,1))
      end
