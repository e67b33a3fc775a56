-- Tables with strings as keys: counts of words, and a walk over all rows.
local names = {}
for i = 1, 2000 do names[i] = "name" .. i end

local counts = {}
for round = 1, 1600 do
  for i = 1, #names do
    local name = names[i]
    counts[name] = (counts[name] or 0) + (i & round)
  end
end

local sum, rows = 0, 0
for _ = 1, 900 do
  for _, count in pairs(counts) do
    sum, rows = sum + count, rows + 1
  end
end
print(rows, sum)
