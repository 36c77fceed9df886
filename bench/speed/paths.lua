local n, d, s = 220, {}, 0
for j = 1, n do
  d[j] = {}
  for i = 1, n do d[j][i] = (i * 7919 + j * 104729) % 1000 + 1 end
end
for k = 1, n do
  for j = 1, n do
    for i = 1, n do
      local t = d[k][i] + d[j][k]
      if t < d[j][i] then d[j][i] = t end
    end
  end
end
for j = 1, n do
  for i = 1, n do s = s + d[j][i] end
end
print(" " .. s)
