! A token goes round a ring by SYNC IMAGES of neighbours.
program ring
  implicit none
  integer :: token[*], me, n
  me = this_image()
  n = num_images()
  token = 0
  sync all
  if (me == 1) token = 100
  if (me > 1) sync images (me - 1)
  if (me < n) then
    token[me + 1] = token + 1
    sync images (me + 1)
  end if
  print *, token
end program ring
