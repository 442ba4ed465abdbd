integer :: setting[*]
setting = 0
if (this_image() == 1) setting = 42
sync all
print *, setting[1]
end
