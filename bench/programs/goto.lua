-- Jumps: a machine with a label for each state, and loops that go on or out by a label.
local function words(text)
  local i, found = 1, 0
  ::outside::
  if i > #text then goto done end
  if text:byte(i) == 32 then i = i + 1 goto outside end
  found = found + 1
  ::inside::
  if i > #text then goto done end
  if text:byte(i) ~= 32 then i = i + 1 goto inside end
  goto outside
  ::done::
  return found
end

local text, found = ("a lantern  hangs over   the gate "):rep(10), 0
for _ = 1, 8000 do found = found + words(text) end

local kept = 0
for i = 1, 2000 do
  for j = 1, 2000 do
    if (i ~ j) & 1 == 1 then goto continue end
    if j > i then goto out end
    kept = kept + j
    ::continue::
  end
  ::out::
end
print(found, kept)
