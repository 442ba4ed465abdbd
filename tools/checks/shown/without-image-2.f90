! Images go on without those that have failed.
program survive
  use iso_fortran_env
  implicit none
  integer :: status, x[*], total, i
  x = this_image()
  if (this_image() == 2) fail image
  sync all (stat = status)
  total = 0
  do i = 1, num_images()
    if (image_status(i) /= stat_failed_image) total = total + x[i]
  end do
  print *, total, status == stat_failed_image
end program survive
