! All images but the first one wait in a loop for a flag, which image 1 sets once it has computed.
program flag
  use iso_fortran_env
  implicit none
  integer, parameter :: turns = 1000
  integer(atomic_int_kind) :: f[*] = 0, seen
  integer :: x, i, j
  sync all
  if (this_image() == 1) then
    x = 1
    do i = 1, turns
      do j = 1, 1000
        x = mod(x * 31 + j, 65521)
      end do
    end do
    call atomic_define(f, 1 + mod(x, 1))
  else
    seen = 0
    do while (seen == 0)
      call atomic_ref(seen, f[1])
    end do
  end if
  print *, this_image()
end program flag
