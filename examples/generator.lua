-- Arrangements of letters in the order of a dictionary, one a turn: a generator inside the main script makes them,
-- and a second one drops those that a filter does not want. A line is `next`, `skip N` or `without TEXT`. The script has
-- no end of its own as long as arrangements are left: where the lines run out it waits.

local function arrangements(letters)
  table.sort(letters)
  local used, chosen = {}, {}
  local function extend()
    if #chosen == #letters then
      coroutine.yield(table.concat(chosen))
      return
    end
    for i, letter in ipairs(letters) do
      local twin_waits = i > 1 and letters[i - 1] == letter and not used[i - 1]
      if not used[i] and not twin_waits then
        used[i] = true
        chosen[#chosen + 1] = letter
        extend()
        chosen[#chosen] = nil
        used[i] = false
      end
    end
  end
  return coroutine.wrap(extend)
end

local unwanted = {}

local function wanted(text)
  for _, part in ipairs(unwanted) do
    if text:find(part, 1, true) then
      return false
    end
  end
  return true
end

local function filtered(source)
  return coroutine.wrap(function()
    for text in source do
      if wanted(text) then
        coroutine.yield(text)
      end
    end
  end)
end

local words = filtered(arrangements { "n", "o", "o", "k", "s" })
local count, skip = 0, 0
for word in words do
  count = count + 1
  if skip > 0 then
    skip = skip - 1
  else
    local verb, object = coroutine.yield(count, word):match("^(%a+)%s*(%w*)$")
    if verb == "skip" then
      skip = tonumber(object)
    elseif verb == "without" then
      unwanted[#unwanted + 1] = object
    elseif verb ~= "next" then
      print("a line is next, skip N or without TEXT")
    end
  end
end
return count
