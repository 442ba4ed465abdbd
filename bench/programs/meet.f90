! The images only meet.
program meet
  implicit none
  integer, parameter :: turns = 1000
  integer :: k
  do k = 1, turns
    sync all
  end do
end program meet
