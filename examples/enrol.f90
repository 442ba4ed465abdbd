! Each image enters its number in a list on image 1, in the order in which they come. The CRITICAL construct holds one image at a time.
program enrol
  implicit none
  integer :: list(64)[*], used[*] = 0
  integer :: place

  critical
    place = used[1] + 1
    list(place)[1] = this_image()
    used[1] = place
  end critical
  sync all
  if (this_image() == 1) print *, list(1:used)
end program enrol
