program stencil
  implicit none
  integer, parameter :: rounds = 20000, cells = 1000
  integer :: a(cells), b(cells), r, i, s
  integer(8) :: seed
  seed = 1
  do i = 1, cells
    seed = modulo(seed * 1103515245_8 + 12345_8, 2147483648_8)
    a(i) = int(seed / 65536)
  end do
  do r = 1, rounds
    do i = 2, cells - 1
      b(i) = (a(i - 1) + 2 * a(i) + a(i + 1)) / 4
    end do
    b(1) = a(1)
    b(cells) = a(cells)
    do i = 1, cells
      a(i) = modulo(b(i) + r, 32768)
    end do
  end do
  s = 0
  do i = 1, cells
    s = s + a(i)
  end do
  print *, s
end program stencil
