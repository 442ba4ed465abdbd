! Heat in a rod with insulated ends, a point on each of five images. A step takes a quarter of each neighbour's heat and half of its own;
! all of it is counted four times as fine after each step, so that no division is needed.
integer :: u[*]
integer :: left, right
if (this_image() == 3) u = 64

left = u
right = u
sync all
if (this_image() == 2) left = u[1]
if (this_image() == 3) left = u[2]
if (this_image() == 4) left = u[3]
if (this_image() == 5) left = u[4]
if (this_image() == 1) right = u[2]
if (this_image() == 2) right = u[3]
if (this_image() == 3) right = u[4]
if (this_image() == 4) right = u[5]
sync all
u = left + u + u + right

left = u
right = u
sync all
if (this_image() == 2) left = u[1]
if (this_image() == 3) left = u[2]
if (this_image() == 4) left = u[3]
if (this_image() == 5) left = u[4]
if (this_image() == 1) right = u[2]
if (this_image() == 2) right = u[3]
if (this_image() == 3) right = u[4]
if (this_image() == 4) right = u[5]
sync all
u = left + u + u + right

left = u
right = u
sync all
if (this_image() == 2) left = u[1]
if (this_image() == 3) left = u[2]
if (this_image() == 4) left = u[3]
if (this_image() == 5) left = u[4]
if (this_image() == 1) right = u[2]
if (this_image() == 2) right = u[3]
if (this_image() == 3) right = u[4]
if (this_image() == 4) right = u[5]
sync all
u = left + u + u + right
print *, u
end
