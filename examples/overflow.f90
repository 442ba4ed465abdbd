integer :: a
a = 2147483647
print *, a + 1
end
