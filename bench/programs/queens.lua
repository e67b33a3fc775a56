-- Ways to place twelve queens on a board, all found by trying.
local size, found = 12, 0
local columns, rising, falling = {}, {}, {}

local function place(row)
  if row > size then
    found = found + 1
    return
  end
  for column = 1, size do
    local up, down = row + column, row - column + size
    if not (columns[column] or rising[up] or falling[down]) then
      columns[column], rising[up], falling[down] = true, true, true
      place(row + 1)
      columns[column], rising[up], falling[down] = false, false, false
    end
  end
end

place(1)
print(found)
