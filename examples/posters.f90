! Images that post one event, and one that waits for a single post: which post it takes is told by the order, and with
! it whether x[2] is set before it is read.
program posters
  use iso_fortran_env
  implicit none
  type (event_type) :: posted[*]
  integer :: x[*], seen

  x = this_image()
  if (this_image() > 1) event post (posted[1])
  if (this_image() == 1) then
    event wait (posted)
    seen = x[2]
    print *, seen
  end if
end program posters
