! Two locks, taken in two orders: each image may hold the one for which the other one waits.
program deadlock
  use iso_fortran_env
  implicit none
  type (lock_type) :: left[*], right[*]

  if (this_image() == 1) then
    lock (left[1])
    lock (right[1])
  else
    lock (right[1])
    lock (left[1])
  end if
  unlock (left[1])
  unlock (right[1])
  print *, 'done'
end program deadlock
