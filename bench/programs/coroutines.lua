-- Values handed from one coroutine to the next: numbers, those of them that are odd, sums of two.
local function numbers(last)
  return coroutine.wrap(function()
    for i = 1, last do coroutine.yield(i) end
  end)
end

local function odd(source)
  return coroutine.wrap(function()
    for i in source do
      if i & 1 == 1 then coroutine.yield(i) end
    end
  end)
end

local sum = 0
for i in odd(numbers(800000)) do sum = sum + i end

local echo = coroutine.create(function(first)
  while true do first = coroutine.yield(first + 1) end
end)
local value = 0
for _ = 1, 800000 do
  local _, given = coroutine.resume(echo, value)
  value = given
end
print(sum, value)
