! A producer and consumers, by events.
program queue
  use iso_fortran_env
  implicit none
  type (event_type) :: full[*], empty[*]
  integer :: slot[*], i, total
  total = 0
  if (this_image() == 1) then
    do i = 2, num_images()
      slot[i] = 10 * i
      event post (full[i])
    end do
    event wait (empty, until_count = num_images() - 1)
  else
    event wait (full)
    total = slot
    event post (empty[1])
  end if
  print *, total
end program queue
