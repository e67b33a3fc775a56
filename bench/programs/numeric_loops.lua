-- Numeric loops, one in another, with nothing but arithmetic in them.
local sum, differences = 0, 0
for i = 1, 7000 do
  for j = i, 1, -1 do
    sum = sum + (i ~ j)
  end
  for j = 1, i, 3 do
    differences = differences + i - j
  end
end
print(sum, differences)
