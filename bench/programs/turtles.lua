local function step(moved)
  moved.x = moved.x + moved.ahead
  moved.y = moved.y + moved.aside
end

local function turn(turned)
  local before = turned.ahead
  turned.ahead = -turned.aside
  turned.aside = before
end

local function distance(from, to)
  return math.abs(from.x - to.x) + math.abs(from.y - to.y)
end

local one = { x = 0, y = 0, ahead = 1, aside = 0 }
local two = { x = 0, y = 0, ahead = 1, aside = 0 }
local sum = 0
for i = 1, 50000 do
  step(one)
  if i % 3 == 0 then turn(one) end
  step(two)
  if i % 5 == 0 then turn(two) end
  sum = (sum + distance(one, two)) % 1000000
end
print(sum)
