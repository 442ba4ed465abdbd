! Images take jobs off a list behind a lock.
program locks
  use iso_fortran_env
  implicit none
  type (lock_type) :: gate[*]
  integer :: next[*], mine, done
  next = 0
  done = 0
  sync all
  do
    lock (gate[1])
    mine = next[1] + 1
    next[1] = mine
    unlock (gate[1])
    if (mine > 6) exit
    done = done + mine
  end do
  call co_sum(done)
  if (this_image() == 1) print *, done
end program locks
