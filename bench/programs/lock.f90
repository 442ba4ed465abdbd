! The images fight for one lock.
program lock
  use iso_fortran_env
  implicit none
  integer, parameter :: turns = 1000
  type(lock_type) :: l[*]
  integer :: k
  sync all
  do k = 1, turns
    lock (l[1])
    unlock (l[1])
  end do
end program lock
