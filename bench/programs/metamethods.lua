-- Operators and indexing by metamethods.
local Vector = {}
Vector.__index = Vector
local function vector(x, y) return setmetatable({ x = x, y = y }, Vector) end
function Vector.__add(a, b) return vector(a.x + b.x, a.y + b.y) end
function Vector.__unm(a) return vector(-a.x, -a.y) end
function Vector.__eq(a, b) return a.x == b.x and a.y == b.y end
function Vector.__len(a) return a.x * a.x + a.y * a.y end
function Vector.__call(a, scale) return vector(a.x * scale, a.y * scale) end

local at, step, equal = vector(0, 0), vector(1, 2), 0
for i = 1, 400000 do
  at = at + step(i & 3)
  if at == step then equal = equal + 1 end
  if i & 1023 == 0 then at = -at end
end

local squares = setmetatable({}, { __index = function(_, k) return k * k end })
local sum = 0
for i = 1, 1500000 do sum = sum + squares[i & 255] end
print(at.x, at.y, #at, equal, sum)
