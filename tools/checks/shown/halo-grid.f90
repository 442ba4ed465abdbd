! A field on a grid of images: each puts its edges into the halos of its neighbours.
program halo2d
  implicit none
  integer :: field(0:5, 0:5)[4, *]
  integer :: me(2), i, k, total
  me(1) = mod(this_image() - 1, 4) + 1
  me(2) = (this_image() - 1) / 4 + 1
  field = 0
  do i = 1, 4
    field(i, 1:4) = me(1) + 10 * me(2) + i
  end do
  sync all
  if (me(1) < 4) field(0, 1:4)[me(1) + 1, me(2)] = field(4, 1:4)
  if (me(1) > 1) field(5, 1:4)[me(1) - 1, me(2)] = field(1, 1:4)
  if (me(2) < num_images() / 4) field(1:4, 0)[me(1), me(2) + 1] = field(1:4, 4)
  if (me(2) > 1) field(1:4, 5)[me(1), me(2) - 1] = field(1:4, 1)
  sync all
  total = 0
  do i = 0, 5
    do k = 0, 5
      total = total + field(i, k)
    end do
  end do
  call co_sum(total)
  if (this_image() == 1) print *, total
end program halo2d
