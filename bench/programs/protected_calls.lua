-- Protected calls: most return, each eighth fails with a value, each sixteenth with a text and its place.
local function work(i)
  if i & 15 == 3 then error("failed") end
  if i & 7 == 0 then error(i, 0) end
  return i
end

local returned, failed, bytes = 0, 0, 0
for i = 1, 1500000 do
  local ok, value = pcall(work, i)
  if ok then
    returned = returned + value
  elseif math.type(value) then
    failed = failed + value
  else
    bytes = bytes + #value:match("[^:]*$")
  end
end
print(returned, failed, bytes)
