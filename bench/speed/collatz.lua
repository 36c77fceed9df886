local best, at = 0, 0
for i = 1, 250000 do
  local n, l = i, 0
  for k = 1, 400 do
    if n == 1 then
      l = l
    else
      l = l + 1
      if n % 2 == 0 then n = n // 2 else n = 3 * n + 1 end
    end
  end
  if l > best then best, at = l, i end
end
print(" " .. best .. " " .. at)
