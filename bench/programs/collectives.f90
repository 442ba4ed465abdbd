! Sums, greatest values and broadcasts of all images.
program collectives
  implicit none
  integer, parameter :: turns = 1000
  integer :: s, m, b(16), k
  s = 0
  b = 0
  do k = 1, turns
    s = mod(this_image() * k, 101)
    call co_sum(s)
    m = mod(s + this_image(), 13)
    call co_max(m)
    if (this_image() == 1) b = m
    call co_broadcast(b, source_image=1)
  end do
  print *, s, b(16)
end program collectives
