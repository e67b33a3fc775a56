-- Functions that are made again and again, each with variables of its own.
local function adder(n)
  return function(m) return n + m end
end

local function composed(f, g)
  return function(x) return g(f(x)) end
end

local sum = 0
for i = 1, 800000 do
  local f = composed(adder(i), adder(-1))
  sum = sum + f(1)
end
print(sum)
