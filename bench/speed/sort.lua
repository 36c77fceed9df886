local n, w, x = 262144, 1, 12345
local a, b = {}, {}
for i = 1, n do
  x = x * 16807 % 2147483647
  a[i] = x
end
for p = 1, 18 do
  for r = 1, n, 2 * w do
    local y, z = r, r + w
    for k = r, r + 2 * w - 1 do
      if z >= r + 2 * w then
        b[k] = a[y]
        y = y + 1
      elseif y >= r + w then
        b[k] = a[z]
        z = z + 1
      elseif a[y] <= a[z] then
        b[k] = a[y]
        y = y + 1
      else
        b[k] = a[z]
        z = z + 1
      end
    end
  end
  for i = 1, n do a[i] = b[i] end
  w = 2 * w
end
print(" " .. a[1] .. " " .. a[n // 2] .. " " .. a[n])
