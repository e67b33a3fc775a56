-- Arrays filled at the end, read forwards and backwards, and turned round in place.
local total = 0
for round = 1, 20 do
  local array = {}
  for i = 1, 200000 do array[i] = i ~ round end
  local low, high = 1, #array
  while low < high do
    array[low], array[high] = array[high], array[low]
    low, high = low + 1, high - 1
  end
  for i = #array, 1, -2 do total = total + array[i] end
  for i, value in ipairs(array) do
    if i & 3 == 0 then total = total - value end
  end
end
print(total)
