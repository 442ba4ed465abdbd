integer :: x[*]
integer :: more
more = 0
x = this_image()
sync all
if (this_image() == 2) more = x[1]
if (this_image() == 3) more = x[2]
if (this_image() == 4) more = x[3]
sync all
x = x + more
more = 0
sync all
if (this_image() == 3) more = x[1]
if (this_image() == 4) more = x[2]
sync all
x = x + more
print *, x
end
