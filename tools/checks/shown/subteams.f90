! Teams in teams: sums of quarters, of halves, and of all.
program teams
  use iso_fortran_env
  implicit none
  type (team_type) :: half, quarter
  integer :: x, y, z
  x = this_image()
  y = x
  z = x
  form team (1 + mod(this_image() - 1, 2), half)
  change team (half)
    form team (1 + mod(this_image() - 1, 2), quarter)
    change team (quarter)
      call co_sum(x)
      sync all
    end team
    call co_sum(y)
  end team
  call co_sum(z)
  print *, x, y, z
end program teams
