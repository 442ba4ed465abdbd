! All images add to one counter, on image 1. The lock lets one at a time read it and write it back: what an image finds is what the last
! one has left.
program counter
  use iso_fortran_env
  implicit none
  type (lock_type) :: guard[*]
  integer :: tally[*]
  integer :: i

  tally = 0
  sync all
  do i = 1, 3
    lock (guard[1])
    tally[1] = tally[1] + this_image()
    unlock (guard[1])
  end do
  sync all
  if (this_image() == 1) print *, tally
end program counter
