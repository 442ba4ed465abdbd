! Ten jobs are shared out: an image draws the number of the next one from a counter on image 1, by an atomic subroutine, until none is left.
! Job j is to find j squared. Which image does which job is a matter of the order; the sum isn't.
program jobs
  use iso_fortran_env
  implicit none
  integer (atomic_int_kind) :: drawn[*] = 0
  integer :: job, total

  total = 0
  do
    call atomic_fetch_add (drawn[1], 1, job)
    if (job >= 10) exit
    total = total + (job + 1) ** 2
  end do
  call co_sum (total, result_image = 1)
  if (this_image() == 1) print *, total
end program jobs
