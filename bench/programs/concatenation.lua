-- Strings put together by the operator, piece by piece and many at once.
local bytes, text = 0, ""
for i = 1, 20000 do
  text = text .. "<" .. i .. ">"
  if #text > 4000 then
    bytes, text = bytes + #text, ""
  end
end
for i = 1, 700000 do
  local key = "row " .. i .. ", column " .. (i & 63)
  bytes = bytes + #key
end
print(bytes + #text)
