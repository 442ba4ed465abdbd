! The images part in two teams, by even and odd numbers, and each team adds up its own. Within a team its images count from 1, and a
! statement of a team concerns its images alone; `whole` is the team of all.
program teams
  use iso_fortran_env
  implicit none
  type (team_type) :: half, whole
  integer :: total, sums[*]

  whole = get_team()
  total = this_image()
  form team (1 + mod(this_image(), 2), half)
  change team (half)
    call co_sum (total)
    sums = total
    sync team (whole)
    if (this_image() == 1) then
      print *, 'team', team_number(), 'of', num_images(), 'images has', total
      print *, 'the other one has', sums[1, team_number = 3 - team_number()]
    end if
  end team
  call co_max (total)
  if (this_image() == num_images()) print *, 'the greater is', total
end program teams
