! Heat in a rod, in blocks of four points on each image, with a halo cell at either end of a block. In each step every image puts its outer
! points into the halos of its neighbours, and then takes for each of its points the mean of the two beside it. The rod's left end stays hot.
program halo
  implicit none
  integer, parameter :: width = 4
  integer, allocatable :: u(:)[:]
  integer :: next(width), me, n, i, step

  me = this_image()
  n = num_images()
  allocate (u(0:width + 1)[*])
  u = 0
  if (me == 1) u(0) = 1024
  sync all
  do step = 1, 16
    if (me > 1) u(width + 1)[me - 1] = u(1)
    if (me < n) u(0)[me + 1] = u(width)
    sync all
    do i = 1, width
      next(i) = (u(i - 1) + u(i + 1)) / 2
    end do
    sync all
    u(1:width) = next
  end do
  print *, u(1:width)
  deallocate (u)
end program halo
