-- Reading and writing variables of functions around, one and two levels out.
local ticks, wraps = 0, 0

local function clock(hours)
  local minute, hour = 0, 0
  local function tick()
    ticks = ticks + 1
    minute = minute + 1
    if minute == 60 then
      minute, hour = 0, hour + 1
      if hour == hours then hour, wraps = 0, wraps + 1 end
    end
  end
  local function read() return hour * 60 + minute end
  return tick, read
end

local tick_long, read_long = clock(24)
local tick_short, read_short = clock(12)
for i = 1, 5000000 do
  tick_long()
  if i & 1 == 0 then tick_short() end
end
print(ticks, wraps, read_long(), read_short())
