local a = {}
for r = 1, 10 do
  for i = 1, 1000000 do a[i] = 1 end
  for i = 2, 1000 do
    if a[i] == 1 then
      for j = i * i, 1000000, i do a[j] = 0 end
    end
  end
end
local c = 0
for i = 2, 1000000 do c = c + a[i] end
print(" " .. c)
