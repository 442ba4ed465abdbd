program product
  implicit none
  integer, parameter :: n = 120
  integer :: a(n, n), b(n, n), c(n, n), i, j, k, s
  do j = 1, n
    do i = 1, n
      a(i, j) = mod(i * 7 + j * 3, 11) - 5
      b(i, j) = mod(i * 5 + j * 2, 13) - 6
    end do
  end do
  do j = 1, n
    do i = 1, n
      s = 0
      do k = 1, n
        s = s + a(i, k) * b(k, j)
      end do
      c(i, j) = s
    end do
  end do
  s = 0
  do j = 1, n
    do i = 1, n
      s = s + c(i, j) * mod(i + j, 3)
    end do
  end do
  print *, s
end program product
