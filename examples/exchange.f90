integer :: x[*]
integer :: other
other = 0
x = this_image() + 100
sync all
if (this_image() == 1) other = x[2]
if (this_image() == 2) other = x[1]
sync all
x = other
print *, x
end
