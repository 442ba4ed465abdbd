integer :: x[*], f[*], v  ! the flag f is set in the segment in which x is defined
if (this_image() == 2) then
  x = 5
  call atomic_define(f[1], 1)
end if
if (this_image() == 1) then
  v = 0
  do while (v == 0)
    call atomic_ref(v, f)
  end do
  sync memory
  print *, x[2]
end if
end
