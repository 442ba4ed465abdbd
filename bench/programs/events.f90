! A pipeline: each image waits for a number from the one before it and hands it on; an event says that the cell is free.
program events
  use iso_fortran_env
  implicit none
  integer, parameter :: turns = 1000
  type(event_type) :: full[*], free[*]
  integer :: cell[*], number, me, k
  me = this_image()
  number = 0
  do k = 1, turns
    number = k
    if (me > 1) then
      event wait (full)
      number = cell + 1
      event post (free[me - 1])
    end if
    if (me < num_images()) then
      if (k > 1) event wait (free)
      cell[me + 1] = number
      event post (full[me + 1])
    end if
  end do
  print *, number
end program events
