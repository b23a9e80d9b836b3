      program grades
! Counts marks by grade; a negative mark ends the list.
      integer mark, counts(5), grade
      save counts
      data counts /5*0/
      read *, mark
      do while (mark .ge. 0)
        counts(grade(mark)) = counts(grade(mark)) + 1
        read *, mark
      end do
      print *, counts
      end
      integer function grade(mark)
      integer mark
      if (mark .ge. 90) then
        grade = 1
      else if (mark .ge. 80) then
        grade = 2
      else if (mark .ge. 65) then
        grade = 3
      else if (mark .ge. 50) then
        grade = 4
      else
        grade = 5
      end if
      end
