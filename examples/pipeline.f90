! A pipeline of three images: the first one counts, the second squares, the third adds. A number is handed on in the cell of the next image;
! the event `full` says that it is there, and `free` that the cell may be used again.
program pipeline
  use iso_fortran_env
  implicit none
  type (event_type) :: full[*], free[*]
  integer :: cell[*]
  integer :: k, number, total

  total = 0
  do k = 1, 4
    select case (this_image())
    case (1)
      call hand_on (k)
    case (2)
      call take (number)
      call hand_on (number ** 2)
    case (3)
      call take (number)
      total = total + number
      print *, number, total
    end select
  end do

contains

  subroutine hand_on (value)
    integer, intent (in) :: value
    if (k > 1) event wait (free)
    cell[this_image() + 1] = value
    event post (full[this_image() + 1])
  end subroutine hand_on

  subroutine take (value)
    integer, intent (out) :: value
    event wait (full)
    value = cell
    event post (free[this_image() - 1])
  end subroutine take

end program pipeline
