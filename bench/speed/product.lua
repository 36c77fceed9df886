local n = 320
local a, b, c = {}, {}, {}
for i = 1, n do
  a[i], b[i], c[i] = {}, {}, {}
  for j = 1, n do
    a[i][j] = (i * 31 + j) % 1009
    b[i][j] = (i * 17 + j * 13) % 1009
  end
end
for j = 1, n do
  for i = 1, n do
    local s = 0
    for k = 1, n do s = (s + a[i][k] * b[k][j]) % 1000003 end
    c[i][j] = s
  end
end
print(" " .. c[1][1] .. " " .. c[n][n])
