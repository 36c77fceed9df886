local h, x, m = {}, 12345, 0
for i = 0, 999 do h[i] = 0 end
for i = 1, 10000000 do
  x = x * 16807 % 2147483647
  local k = x % 1000
  h[k] = h[k] + 1
end
for i = 0, 999 do m = math.max(m, h[i]) end
print(" " .. h[0] .. " " .. h[999] .. " " .. m)
