! Collective subroutines, one behind the other.
program collect
  implicit none
  integer :: a, b, c(3)
  logical :: l
  a = this_image()
  b = this_image()
  c = [this_image(), 2 * this_image(), 3]
  call co_sum(a)
  call co_max(b)
  call co_min(c)
  call co_broadcast(a, 1)
  if (this_image() == 1) print *, a, b, c
end program collect
