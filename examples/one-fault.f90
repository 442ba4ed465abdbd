integer :: x[*]
x = this_image()
print *, x
sync all
if (this_image() == 2) print *, x[9]
print *, 0
end
