-- Bytes and parts of strings, compared and looked up.
local text = ("the quick brown fox jumps over the lazy dog "):rep(50)
local letters, same, upper = 0, 0, 0
for round = 1, 800 do
  for i = 1, #text do
    local byte = text:byte(i)
    if byte ~= 32 then letters = letters + 1 end
    if text:sub(i, i + 2) == "the" then same = same + 1 end
  end
  local changed = text:upper():sub(round, -round)
  upper = upper + #changed
end
print(letters, same, upper)
