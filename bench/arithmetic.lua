-- arithmetic.txt in plain Lua
local phase, sum = 0, 0
for _ = 1, 100 do
  for i = 0, 65535 do
    local speed = 7 * i
    phase = phase + speed
    if phase >= 1000000000 then phase = phase - 1000000000 end
    sum = sum + (speed - -3 * phase)
    if sum >= 10000000000000 then sum = sum - 10000000000000 end
  end
end
print(phase)
print(sum)
