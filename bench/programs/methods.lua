-- Method calls through a metatable, and through the metatable of a class above.
local Account = {}
Account.__index = Account

function Account.new(class, owner) return setmetatable({ owner = owner, balance = 0, entries = 0 }, class) end
function Account:deposit(amount) self.balance = self.balance + amount self:entered() end
function Account:withdraw(amount)
  if self:available() < amount then return false end
  self.balance = self.balance - amount
  self:entered()
  return true
end
function Account:available() return self.balance end
function Account:entered() self.entries = self.entries + 1 end

local Credit = setmetatable({ limit = 500 }, { __index = Account })
Credit.__index = Credit
function Credit:available() return self.balance + self.limit end

local plain, credit, refused = Account:new("Ada"), Account.new(Credit, "Grace"), 0
for i = 1, 800000 do
  plain:deposit(i & 7)
  if not plain:withdraw(4) then refused = refused + 1 end
  if not credit:withdraw(i & 15) then
    refused = refused + 1
    credit:deposit(100)
  end
end
print(plain.balance, plain.entries, credit.balance, credit.entries, refused)
