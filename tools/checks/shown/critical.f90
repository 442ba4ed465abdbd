! A counter in a critical construct.
program counter
  implicit none
  integer :: count[*]
  count = 0
  sync all
  critical
    count[1] = count[1] + 1
  end critical
  sync all
  if (this_image() == 1) print *, count
end program counter
