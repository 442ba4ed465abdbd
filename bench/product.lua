-- The loops of product.f90 in Lua 5.4.
local n = tonumber(arg[1] or "120")
local a, b, c = {}, {}, {}
for i = 1, n do
  a[i], b[i], c[i] = {}, {}, {}
  for j = 1, n do
    a[i][j] = (i * 7 + j * 3) % 11 - 5
    b[i][j] = (i * 5 + j * 2) % 13 - 6
  end
end
for j = 1, n do
  for i = 1, n do
    local s = 0
    for k = 1, n do
      s = s + a[i][k] * b[k][j]
    end
    c[i][j] = s
  end
end
local s = 0
for j = 1, n do
  for i = 1, n do
    s = s + c[i][j] * ((i + j) % 3)
  end
end
print(s)
