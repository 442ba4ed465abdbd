integer :: x[*]
print *, x[3]
end
