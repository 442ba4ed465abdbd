integer :: x[*]
integer :: left
x = 0
left = 0
if (this_image() == 1) x = 1

sync all
if (this_image() == 2) left = x[1]
if (this_image() == 3) left = x[2]
if (this_image() == 4) left = x[3]
sync all
x = x + left

sync all
if (this_image() == 2) left = x[1]
if (this_image() == 3) left = x[2]
if (this_image() == 4) left = x[3]
sync all
x = x + left

sync all
if (this_image() == 2) left = x[1]
if (this_image() == 3) left = x[2]
if (this_image() == 4) left = x[3]
sync all
x = x + left
print *, x
end
