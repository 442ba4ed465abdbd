! The images as a grid of two rows, by the coshape [2,*]. Each image adds up the numbers of its row.
program grid
  implicit none
  integer :: x[2, *]
  integer :: row, column, k, total

  x = this_image()
  row = this_image(x, 1)
  column = this_image(x, 2)
  sync all
  total = 0
  do k = 1, num_images() / 2
    total = total + x[row, k]
  end do
  print '("row", I2, ", column", I2, ": total", I4)', row, column, total
end program grid
