-- A small game of rooms and things. Each turn yields where the player is and what the bag weighs; a line is an order:
-- `go WAY`, `take THING`, `drop THING`, `bag` or `quit`. The lamp opens the cellar, and the crown ends the game.

local Room = {}
Room.__index = Room

local function room(name, things)
  return setmetatable({ name = name, things = things, ways = {} }, Room)
end

function Room:join(way, back, other)
  self.ways[way], other.ways[back] = other, self
end

local hall, kitchen, cellar = room("hall", { lamp = 2 }), room("kitchen", { bread = 1, pot = 4 }), room("cellar", { crown = 5 })
hall:join("north", "south", kitchen)
kitchen:join("down", "up", cellar)

local here, bag, limit = hall, {}, 8

local function names_of(things)
  local names = {}
  for name in pairs(things) do
    names[#names + 1] = name
  end
  table.sort(names)
  return #names == 0 and "nothing" or table.concat(names, ", ")
end

local function weight()
  local sum = 0
  for _, each in pairs(bag) do
    sum = sum + each
  end
  return sum
end

local function move_thing(thing, from, to)
  to[thing], from[thing] = from[thing], nil
end

local orders = {}

function orders.go(way)
  local next_room = here.ways[way] or error("no way " .. way, 0)
  if next_room == cellar and not bag.lamp then
    error("too dark", 0)
  end
  here = next_room
  return here.name .. " has " .. names_of(here.things)
end

function orders.take(thing)
  local added = here.things[thing] or error("no " .. thing .. " here", 0)
  if weight() + added > limit then
    error(("%s is too heavy by %d"):format(thing, weight() + added - limit), 0)
  end
  move_thing(thing, here.things, bag)
  return "taken"
end

function orders.drop(thing)
  local _ = bag[thing] or error("no " .. thing .. " in the bag", 0)
  move_thing(thing, bag, here.things)
  return "dropped"
end

function orders.bag() return names_of(bag) end

while not bag.crown do
  local line = coroutine.yield(here.name, weight())
  local verb, object = line:match("^(%a+)%s*(%a*)$")
  if verb == "quit" then
    return "left", names_of(bag)
  end
  local _, told = pcall(orders[verb] or function() error("what?", 0) end, object)
  print(told)
end
return "won", names_of(bag)
