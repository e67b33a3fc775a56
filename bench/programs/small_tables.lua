-- Many small tables: trees that are built, counted and let go, and lists of pairs.
local function tree(depth)
  if depth == 0 then return {} end
  return { left = tree(depth - 1), right = tree(depth - 1) }
end

local function count(node)
  if not node.left then return 1 end
  return 1 + count(node.left) + count(node.right)
end

local nodes = 0
for _ = 1, 20 do nodes = nodes + count(tree(14)) end

local sum = 0
for i = 1, 800000 do
  local point = { i, i + 1 }
  sum = sum + point[2] - point[1]
end
print(nodes, sum)
