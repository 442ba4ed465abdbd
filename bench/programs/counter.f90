! One counter under one lock that all want.
program counter
  use iso_fortran_env
  implicit none
  integer, parameter :: turns = 1000
  type(lock_type) :: l[*]
  integer :: c[*] = 0, k
  sync all
  do k = 1, turns
    lock (l[1])
    c[1] = c[1] + 1
    unlock (l[1])
  end do
  sync all
  if (this_image() == 1) print *, c
end program counter
