local n = 10000
local a, b, c, x = {}, {}, {}, {}
for i = 1, n do
  a[i] = i * 37 % 101
  b[i] = i * 53 % 103
  c[i] = i * 71 % 107
end
for r = 1, 3000 do
  x[1] = r
  x[2] = 1
  for i = 3, n do
    x[i] = (a[i] * x[i-1] + b[i] * x[i-2] + c[i]) % 1000003
  end
end
print(" " .. x[n])
