-- Reading and writing fields of a few records.
local balls = {}
for i = 1, 8 do
  balls[i] = { x = i * 10, y = 100 - i, dx = i, dy = 9 - i, hits = 0 }
end

local function advance(ball)
  ball.x, ball.y = ball.x + ball.dx, ball.y + ball.dy
  if ball.x < 0 or ball.x > 1000 then
    ball.dx, ball.hits = -ball.dx, ball.hits + 1
  end
  if ball.y < 0 or ball.y > 1000 then
    ball.dy, ball.hits = -ball.dy, ball.hits + 1
  end
end

for _ = 1, 300000 do
  for i = 1, #balls do advance(balls[i]) end
end

local x, y, hits = 0, 0, 0
for _, ball in ipairs(balls) do
  x, y, hits = x + ball.x, y + ball.y, hits + ball.hits
end
print(x, y, hits)
