! Prefix sums in rounds.
program prefix
  implicit none
  integer :: x[*], step, add, me
  me = this_image()
  x = me
  step = 1
  do while (step < num_images())
    sync all
    add = 0
    if (me > step) add = x[me - step]
    sync all
    x = x + add
    step = 2 * step
  end do
  print *, x
end program prefix
