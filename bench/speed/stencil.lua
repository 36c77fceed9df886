local a, b = {}, {}
for j = 0, 301 do
  a[j], b[j] = {}, {}
  for i = 0, 301 do a[j][i] = (i * 7919 + j * 104729) % 1000 * 1000 end
end
for r = 1, 50 do
  for j = 1, 300 do
    local row, above, below, to = a[j], a[j-1], a[j+1], b[j]
    for i = 1, 300 do
      to[i] = (4 * row[i] + row[i-1] + row[i+1] + above[i] + below[i]) // 8
    end
  end
  for j = 1, 300 do
    for i = 1, 300 do a[j][i] = b[j][i] end
  end
end
print(" " .. a[1][1] .. " " .. a[150][150] .. " " .. a[300][300])
