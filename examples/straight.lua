-- Declarations and sums: a later declaration hides an earlier one of the same name.
local width = 6
local height = 7
print(width * height)
local width = width + 1
print((width - 1) * (height + 1))
