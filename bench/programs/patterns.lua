-- Patterns over a text of a million bytes.
local line = "item=lamp; count=12; room=hall (north, 3) -- carried\n"
local text = line:rep((1 << 20) // #line)
local plain = 0
for _ = 1, 60 do
  local from = 1
  while true do
    local first, last = text:find("(north", from, true)
    if not first then break end
    plain, from = plain + 1, last + 1
  end
end
local pairs_found = 0
for key, value in text:gmatch("(%w+)=(%w+)") do
  if key == "count" and value == "12" then pairs_found = pairs_found + 1 end
end
local replaced, count = text:gsub("%((%a+), (%d+)%)", "[%2 %1]")
local _, spaces = text:gsub("%s+", "")
print(plain, pairs_found, #replaced, count, spaces)
