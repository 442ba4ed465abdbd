! An even number is halved, an odd one is tripled and one more. After how many steps do the numbers of the images come to 1?
program collatz
  implicit none
  integer :: n, count

  n = this_image()
  count = steps(n)
  select case (count)
  case (0)
    print *, n, 'is there'
  case (1:5)
    print *, n, 'comes there soon, after', count
  case default
    print *, n, 'goes a long way:', count
  end select
  call co_max (count)
  if (this_image() == 1) print *, 'at most', count

contains

  recursive integer function steps (n) result (count)
    integer, intent (in) :: n
    count = 0
    if (n /= 1) count = 1 + steps(after(n))
  end function steps

  integer function after (n)
    integer, intent (in) :: n
    if (mod(n, 2) == 0) then
      after = n / 2
    else
      after = 3 * n + 1
    end if
  end function after

end program collatz
