-- Extra arguments: handed on, counted, chosen from, packed and unpacked.
local function sum(...)
  local total = 0
  for i = 1, select("#", ...) do total = total + (select(i, ...)) end
  return total
end

local function handed_on(...) return sum(...) end

local function turned(first, ...)
  return ..., first
end

local total, seen = 0, 0
for i = 1, 400000 do
  total = total + handed_on(i, i + 1, i + 2, 4)
  total = total + turned(i, 1, 2)
  local packed = table.pack(i, nil, 3)
  seen = seen + packed.n + select("#", table.unpack(packed, 1, packed.n))
end
print(total, seen)
