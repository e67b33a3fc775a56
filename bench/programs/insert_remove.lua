-- Insertions at the end of a list, and as many removals, a million twice.
local list, sum = {}, 0
for _ = 1, 2 do
  for i = 1, 1000000 do table.insert(list, i) end
  for _ = 1, 1000000 do sum = sum + table.remove(list) end
end
print(#list, sum)
