-- An array sorted by a heap that is written in Lua.
local function sift(array, root, last)
  local value = array[root]
  while 2 * root <= last do
    local child = 2 * root
    if child < last and array[child] < array[child + 1] then child = child + 1 end
    if array[child] <= value then break end
    array[root] = array[child]
    root = child
  end
  array[root] = value
end

local function sort(array)
  for root = #array // 2, 1, -1 do sift(array, root, #array) end
  for last = #array, 2, -1 do
    array[1], array[last] = array[last], array[1]
    sift(array, 1, last - 1)
  end
end

local array, state = {}, 88172645463325252
for i = 1, 200000 do
  state = state ~ (state << 13)
  state = state ~ (state >> 7)
  state = state ~ (state << 17)
  array[i] = state >> 20
end
sort(array)
local falls = 0
for i = 2, #array do
  if array[i] < array[i - 1] then falls = falls + 1 end
end
print(array[1], array[#array // 2], array[#array], falls)
