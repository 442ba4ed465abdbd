integer :: u[*]
integer :: before
integer :: next
u = 0
before = 0
next = 0
if (this_image() == 2) before = 1
if (this_image() == 3) u = 1

sync all
if (this_image() == 2) next = u[1] + u[3] - before
if (this_image() == 3) next = u[2] + u[4] - before
if (this_image() == 4) next = u[3] + u[5] - before
before = u
sync all
u = next
if (this_image() == 4) print *, u

sync all
if (this_image() == 2) next = u[1] + u[3] - before
if (this_image() == 3) next = u[2] + u[4] - before
if (this_image() == 4) next = u[3] + u[5] - before
before = u
sync all
u = next
if (this_image() == 4) print *, u

sync all
if (this_image() == 2) next = u[1] + u[3] - before
if (this_image() == 3) next = u[2] + u[4] - before
if (this_image() == 4) next = u[3] + u[5] - before
before = u
sync all
u = next
if (this_image() == 4) print *, u
end
