-- A purchase goes through three hands, each on a day of its own. A turn yields whose answer is awaited and what for;
-- the line is `yes`, `no REASON` or `ask QUESTION`, which goes back to the one who wants to buy. The last hand is the
-- payment, which may be tried again. Where it fails for good the reservation is still given back, by the variable that
-- is to be closed, and the script ends with the error.

local request = { what = "a printer", price = 480, by = "Ada" }
local budget = { left = 500 }
local journal = {}

local function note(form, ...)
  journal[#journal + 1] = form:format(...)
  print(#journal .. ": " .. journal[#journal])
end

local function question(text)
  local answer = coroutine.yield(request.by, text)
  note("%s: %s", request.by, answer)
  return answer
end

local function decision(who)
  local subject = request.what .. " for " .. request.price
  while true do
    local word, rest = coroutine.yield(who, subject):match("^(%S+)%s*(.*)$")
    if word == "yes" then
      note("%s agrees", who)
      return true
    elseif word == "no" then
      note("%s refuses: %s", who, rest)
      return false, rest
    elseif word == "ask" then
      subject = subject .. " (" .. question(rest) .. ")"
    else
      print("an answer is yes, no REASON or ask QUESTION")
    end
  end
end

local function reserve(amount)
  budget.left = budget.left - amount
  note("%d reserved, %d left", amount, budget.left)
  local reservation = { kept = false }
  return setmetatable(reservation, {
    __close = function()
      if not reservation.kept then
        budget.left = budget.left + amount
        note("%d given back, %d left", amount, budget.left)
      end
    end,
  })
end

local function pay()
  local line = coroutine.yield("bank", request.price)
  local receipt = line:match("^receipt (%d+)$") or error("payment failed: " .. line, 0)
  return tonumber(receipt)
end

local function pay_or_try_again()
  local paid, told = pcall(pay)
  if paid then
    return told
  elseif question(told .. ". Again?") == "yes" then
    return pay_or_try_again()
  end
  error(told)
end

local reservation <close> = reserve(request.price)
for _, who in ipairs { "Grace", "Edsger" } do
  local agreed, reason = decision(who)
  if not agreed then
    return "refused", who, reason
  end
end
local receipt = pay_or_try_again()
reservation.kept = true
return "bought", receipt, budget.left
