local n = 1000
local a, b, d = {}, {}, {}
for i = 1, n do
  a[i] = i * 7919 % 31
  b[i] = i * 104729 % 29
end
for i = 0, n do d[i] = {} end
for i = 0, n do
  d[i][0] = i
  d[0][i] = i
end
for r = 1, 8 do
  for j = 1, n do
    for i = 1, n do
      local c = 1
      if a[i] == b[j] then c = 0 end
      d[i][j] = math.min(d[i-1][j] + 1, d[i][j-1] + 1, d[i-1][j-1] + c)
    end
  end
end
print(" " .. d[n][n])
