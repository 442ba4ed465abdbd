! Behind one barrier the images compute, each for itself, up to another one.
program compute
  implicit none
  integer, parameter :: turns = 1000
  integer :: x, i, j
  x = this_image()
  sync all
  do i = 1, turns
    do j = 1, 1000
      x = mod(x * 31 + j, 65521)
    end do
  end do
  sync all
  print *, x
end program compute
