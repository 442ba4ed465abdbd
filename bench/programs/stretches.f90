! The images compute for some time between barriers, over and over.
program stretches
  implicit none
  integer, parameter :: turns = 100
  integer, parameter :: rounds = 20
  integer :: x, i, j, k
  x = this_image()
  do k = 1, rounds
    do i = 1, turns
      do j = 1, 1000
        x = mod(x * 31 + j, 65521)
      end do
    end do
    sync all
  end do
  print *, x
end program stretches
