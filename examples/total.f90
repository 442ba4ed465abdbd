integer :: x[*]
integer :: total
x = this_image() + 10
sync all
total = x[1] + x[2] + x[3] + x[4]
if (this_image() == 1) print *, total
end
