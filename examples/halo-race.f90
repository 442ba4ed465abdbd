! A ring of blocks with four points each. Every image puts its outer points into the halo cells of its neighbours, and
! takes the sum of what it finds in its own. A SYNC ALL is missing in between.
program halo_race
  implicit none
  integer :: halo(2)[*], u(4), me, n, total

  me = this_image()
  n = num_images()
  u = me
  halo(2)[modulo(me - 2, n) + 1] = u(1)
  halo(1)[mod(me, n) + 1] = u(4)
  total = halo(1) + halo(2)
  call co_sum(total)
  if (me == 1) print *, total
end program halo_race
