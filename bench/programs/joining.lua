-- Lists of a hundred thousand pieces joined by the library.
local bytes = 0
for round = 1, 5 do
  local pieces = {}
  for i = 1, 100000 do pieces[i] = "piece " .. (i ~ round) end
  bytes = bytes + #table.concat(pieces, ", ") + #table.concat(pieces, "", 1000, 2000)
end
print(bytes)
