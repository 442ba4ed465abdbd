integer :: token[*]
integer :: left
integer :: total
left = 0
token = this_image()
total = token

sync all
if (this_image() == 1) left = token[4]
if (this_image() == 2) left = token[1]
if (this_image() == 3) left = token[2]
if (this_image() == 4) left = token[3]
sync all
token = left
total = total + left

sync all
if (this_image() == 1) left = token[4]
if (this_image() == 2) left = token[1]
if (this_image() == 3) left = token[2]
if (this_image() == 4) left = token[3]
sync all
token = left
total = total + left

sync all
if (this_image() == 1) left = token[4]
if (this_image() == 2) left = token[1]
if (this_image() == 3) left = token[2]
if (this_image() == 4) left = token[3]
total = total + left
print *, total
end
