-- A talk with a ferryman. Each turn yields what he says and how many answers there are; the line that is handed
-- over is the number of an answer. What was said before decides what can be said later.

local coins, known = 2, {}

local places = {
  shore = {
    says = "The ferryman looks up. 'Crossing?'",
    { "What does it cost?", to = "price" },
    { "Who lives on the island?", to = "island", once = true },
    { "I will pay.", to = "paid", needs = "price" },
    { "Not today.", to = "leave" },
  },
  price = {
    says = "'Three coins. Two, for one who knows the old song.'",
    { "I have heard of a lighthouse and its song.", to = "song", needs = "island" },
    { "I see.", to = "shore" },
  },
  island = {
    says = "'A keeper. She sings when the lamp is lit.'",
    { "Thank you.", to = "shore" },
  },
  song = {
    says = "He hums along. 'Two coins, then.'",
    { "Let us go.", to = "paid" },
    { "Wait.", to = "shore" },
  },
}

local function open_answers(place)
  local open = {}
  for _, answer in ipairs(place) do
    local fresh = not (answer.once and known[answer.to])
    local ready = not answer.needs or known[answer.needs]
    if fresh and ready then
      open[#open + 1] = answer
    end
  end
  return open
end

local function ask(place)
  local answers = open_answers(place)
  print(place.says)
  for i, answer in ipairs(answers) do
    print("  " .. i .. ". " .. answer[1])
  end
  while true do
    local line = coroutine.yield("answer", #answers)
    local chosen = answers[tonumber(line)]
    if chosen then
      return chosen.to
    end
    print("'Speak up,' he says. '" .. line .. "' is no answer.")
  end
end

local name = "shore"
while places[name] do
  known[name] = true
  name = ask(places[name])
end

if name == "leave" then
  return "stayed", coins
end
local price = known.song and 2 or 3
if coins < price then
  print("You are " .. price - coins .. " short. He shakes his head.")
  return "refused", coins
end
print("The boat pushes off.")
return "crossed", coins - price
