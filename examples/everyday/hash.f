      program hashing
! A hash table with open addressing.
      integer slots
      parameter (slots = 11)
      integer table(0:slots-1), probes
      common /store/ table, probes
      integer keys(6), i, where
      data keys /15, 26, 4, 37, 48, 9/
      do i = 1, 6
        call insert(keys(i))
      end do
      do 10 i = 0, slots - 1
        print *, i, table(i)
 10   continue
      call lookup(37, where)
      print *, 'found at', where
      call lookup(99, where)
      print *, 'found at', where, ' probes', probes
      end

      subroutine insert(key)
      integer key, h
      integer slots
      parameter (slots = 11)
      integer table(0:slots-1), probes
      common /store/ table, probes
      h = mod(key, slots)
      do while (table(h) .ne. 0)
        h = mod(h + 1, slots)
        probes = probes + 1
      end do
      table(h) = key
      end

      subroutine lookup(key, place)
      integer key, place, slots, i
      parameter (slots = 11)
      integer table(0:slots-1), probes
      common /store/ table, probes
      place = -1
      do 20 i = 0, slots - 1
        if (table(mod(key + i, slots)) .eq. key) then
          place = mod(key + i, slots)
          return
        end if
        if (table(mod(key + i, slots)) .eq. 0) return
 20   continue
      end
