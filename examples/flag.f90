integer :: x[*], f[*], v  ! x is handed on by the flag f
if (this_image() == 2) then
  x = 5
  sync memory  ! ends the segment in which x is defined
  call atomic_define(f[1], 1)
end if
if (this_image() == 1) then
  v = 0
  do while (v == 0)
    call atomic_ref(v, f)
  end do
  sync memory  ! begins the segment in which x is referenced
  print *, x[2]
end if
end
