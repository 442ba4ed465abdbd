! Image 1 waits for one more SYNC IMAGES than the others make.
program mismatch
  implicit none
  integer :: i
  if (this_image() == 1) then
    do i = 2, num_images()
      sync images (i)
    end do
    sync images (*)
  else
    sync images (1)
  end if
  sync all
end program mismatch
