integer :: t[*]
t = 0
if (this_image() == 1) t = 100
sync all
if (this_image() == 2) t = t[1] + this_image()
sync all
if (this_image() == 3) t = t[2] + this_image()
sync all
if (this_image() == 4) print *, t[3] + this_image()
end
