integer :: x[*]
x = this_image()
sync all
if (this_image() == 1) print *, x[4]
end
