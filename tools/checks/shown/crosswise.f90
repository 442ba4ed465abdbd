! Each image takes its own lock and then that of the next one.
program crosswise
  use iso_fortran_env
  implicit none
  type (lock_type) :: fork[*]
  integer :: me
  me = this_image()
  lock (fork)
  lock (fork[mod(me, num_images()) + 1])
  print *, me
  unlock (fork[mod(me, num_images()) + 1])
  unlock (fork)
end program crosswise
