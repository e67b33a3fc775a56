-- A million integers sorted by the library.
local array, state = {}, 88172645463325252
for i = 1, 1000000 do
  state = state ~ (state << 13)
  state = state ~ (state >> 7)
  state = state ~ (state << 17)
  array[i] = state >> 20
end
table.sort(array)
local falls = 0
for i = 2, #array do
  if array[i] < array[i - 1] then falls = falls + 1 end
end
print(array[1], array[#array // 2], array[#array], falls)
