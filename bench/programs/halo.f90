! A ring: each image gives its ends to its two neighbours, meets them, and goes on with its own cells.
program halo
  implicit none
  integer, parameter :: turns = 1000
  integer, parameter :: cells = 64
  integer :: ends(2)[*], a(0:cells + 1), b(cells), left, right, i, k
  left = modulo(this_image() - 2, num_images()) + 1
  right = modulo(this_image(), num_images()) + 1
  do i = 1, cells
    a(i) = mod(i * this_image(), 97)
  end do
  do k = 1, turns
    ends(2)[left] = a(1)
    ends(1)[right] = a(cells)
    sync all
    a(0) = ends(1)
    a(cells + 1) = ends(2)
    do i = 1, cells
      b(i) = (a(i - 1) + 2 * a(i) + a(i + 1)) / 4
    end do
    do i = 1, cells
      a(i) = modulo(b(i) + k, 32768)
    end do
    sync all
  end do
  print *, a(1), a(cells)
end program halo
