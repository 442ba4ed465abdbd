! The images add up their numbers. Where some have failed, STAT= tells it, and those that are left form a team of their own and go on in it.
program survivors
  use iso_fortran_env
  implicit none
  type (team_type) :: rest
  integer, allocatable :: lost(:)
  integer :: status, mine, total

  mine = this_image()
  sync all (stat = status)
  if (status == stat_failed_image) then
    lost = failed_images()
    if (mine == 1) print *, 'without image', lost
    form team (1, rest, stat = status)
    change team (rest, stat = status)
      call add_up
    end team
  else
    call add_up
  end if

contains

  subroutine add_up
    total = mine
    call co_sum (total)
    print *, 'image', this_image(), 'of', num_images(), 'has the sum', total
  end subroutine add_up

end program survivors
