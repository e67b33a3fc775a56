-- A million texts made by string.format.
local bytes = 0
for i = 1, 1000000 do
  bytes = bytes + #string.format("%5d %s %x", i, "lamp", i)
end
print(bytes)
