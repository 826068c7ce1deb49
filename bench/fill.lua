-- fill.txt in plain Lua
local a = {}
for _ = 1, 200 do
  for i = 0, 65535 do
    a[i] = i
  end
end

local sum = 0
for i = 0, 65535 do
  local x = a[i]
  if x >= 65536 then x = 65535 end
  if x < 0 then x = 0 end
  sum = 2 * sum + x
  while sum >= 1000003 do
    sum = sum - 1000003
  end
end
print(sum)
