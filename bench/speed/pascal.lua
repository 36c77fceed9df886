local p = {}
for r = 1, 2 do
  for i = 0, 4000 do p[i] = 0 end
  p[0] = 1
  for i = 1, 4000 do
    for j = i, 1, -1 do p[j] = (p[j] + p[j-1]) % 1000003 end
  end
end
print(" " .. p[2000] .. " " .. p[1999] .. " " .. p[4000])
