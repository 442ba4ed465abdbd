! An event has fewer posts than are awaited.
program posts
  use iso_fortran_env
  implicit none
  type (event_type) :: ready[*]
  if (this_image() > 1) event post (ready[1])
  if (this_image() == 1) event wait (ready, until_count = 16)
  sync all
end program posts
