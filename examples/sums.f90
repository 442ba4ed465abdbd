integer :: x[*]
x = this_image()
x = x[1] + x[2] + x[3]
print *, x
sync all
end
