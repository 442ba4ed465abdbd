integer :: x[*]
integer :: part
part = 0
x = this_image() + 10
sync all
if (this_image() == 1) part = x[2]
if (this_image() == 3) part = x[4]
sync all
x = x + part
sync all
if (this_image() == 1) print *, x + x[3]
end
