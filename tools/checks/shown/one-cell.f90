! Two images write to one cell.
program race
  implicit none
  integer :: x[*]
  if (this_image() > 1) x[1] = this_image()
  sync all
  if (this_image() == 1) print *, x
end program race
