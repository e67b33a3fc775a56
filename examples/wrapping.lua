-- Integers have 64 bits and wrap around.
local greatest = 9223372036854775807
print(greatest + 1)
print(greatest * greatest)
print(0 - greatest - 2)
