-- The loops of stencil.f90 in Lua 5.4.
local rounds = tonumber(arg[1] or "2000")
local cells = 1000
local a, b = {}, {}
local seed = 1
for i = 1, cells do
  seed = (seed * 1103515245 + 12345) % 2147483648
  a[i] = seed // 65536
  b[i] = 0
end
for r = 1, rounds do
  for i = 2, cells - 1 do
    b[i] = (a[i - 1] + 2 * a[i] + a[i + 1]) // 4
  end
  b[1] = a[1]
  b[cells] = a[cells]
  for i = 1, cells do
    a[i] = (b[i] + r) % 32768
  end
end
local s = 0
for i = 1, cells do s = s + a[i] end
print(s)
