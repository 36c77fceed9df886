local a = {}
for i = 1, 1000000 do a[i] = io.read("n") end
for i = 1, 1000000 do print(" " .. a[i]) end
