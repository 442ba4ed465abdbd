! A value is handed over by an atomic flag and SYNC MEMORY.
program flag
  use iso_fortran_env
  implicit none
  integer (atomic_int_kind) :: ready[*]
  integer :: value[*], seen, tries
  ready = 0
  value = 0
  sync all
  if (this_image() == 1) then
    value[2] = 42
    sync memory
    call atomic_define(ready[2], 1)
  else if (this_image() == 2) then
    seen = 0
    tries = 0
    do while (seen == 0)
      call atomic_ref(seen, ready)
      tries = tries + 1
    end do
    sync memory
    print *, value
  end if
end program flag
