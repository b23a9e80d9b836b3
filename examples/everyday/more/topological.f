      program order
! Puts tasks into an order in which each comes after those it needs.
      integer tasks, pairs
      parameter (tasks = 6, pairs = 7)
      integer before(pairs), after(pairs), need(tasks), i, k
      logical done(tasks)
      data before /6, 6, 5, 5, 3, 4, 1/, after /3, 1, 1, 2, 4, 2, 2/
      data need /tasks*0/, done /tasks*.false./
      do k = 1, pairs
        need(after(k)) = need(after(k)) + 1
      end do
      do k = 1, tasks
        i = 1
        do while (done(i) .or. need(i) .gt. 0)
          i = i + 1
        end do
        done(i) = .true.
        print *, i
        call release(i, before, after, pairs, need)
      end do
      end
      subroutine release(task, before, after, pairs, need)
      integer task, pairs, before(pairs), after(pairs), need(*)
      do k = 1, pairs
        if (before(k) .eq. task) need(after(k)) = need(after(k)) - 1
      end do
      end
