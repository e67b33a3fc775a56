-- Calls of small functions that call themselves.
local function paths(steps)
  if steps < 2 then return 1 end
  return paths(steps - 1) + paths(steps - 2)
end

local function depth(n, d)
  if n == 0 then return d end
  return depth(n - 1, d + 1)
end

local sum = 0
for _ = 1, 20 do sum = sum + depth(100000, 0) end
print(paths(32), sum)
