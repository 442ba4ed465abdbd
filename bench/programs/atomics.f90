! Each image draws numbers from one counter, and adds to one of its neighbour.
program atomics
  use iso_fortran_env
  implicit none
  integer, parameter :: turns = 1000
  integer(atomic_int_kind) :: drawn[*] = 0, passed[*] = 0
  integer :: right, number, k
  right = mod(this_image(), num_images()) + 1
  sync all
  do k = 1, turns
    call atomic_fetch_add(drawn[1], 1, number)
    call atomic_add(passed[right], 1)
  end do
  sync all
  call atomic_ref(number, passed)
  print *, number
end program atomics
