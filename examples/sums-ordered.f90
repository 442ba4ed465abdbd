integer :: x[*]
integer :: total
x = this_image()
sync all
total = x[1] + x[2] + x[3]
sync all
x = total
print *, x
end
