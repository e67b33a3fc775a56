-- Loops that test a condition: for each number the steps down to 1, halved where even, else trebled and one more.
local longest, from = 0, 0
for start = 1, 100000 do
  local n, steps = start, 0
  while n ~= 1 do
    if n & 1 == 0 then n = n >> 1 else n = 3 * n + 1 end
    steps = steps + 1
  end
  if steps > longest then longest, from = steps, start end
end
print(longest, from)
