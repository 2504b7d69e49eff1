-- A producer and a consumer as coroutines over a bounded buffer; who finds no place or no word waits for the other one.
local size, last = 8, 10000
local kept, first, used = {}, 0, 0

local producer = coroutine.create(function()
  for i = 1, last do
    while used == size do coroutine.yield() end
    kept[(first + used) % size] = i % 100
    used = used + 1
  end
end)

local consumer = coroutine.create(function()
  local sum = 0
  for i = 1, last do
    while used == 0 do coroutine.yield() end
    local word = kept[first]
    first = (first + 1) % size
    used = used - 1
    sum = (sum + word * i) % 1000000
  end
  print(sum)
end)

while coroutine.status(consumer) ~= "dead" do
  if coroutine.status(producer) ~= "dead" then coroutine.resume(producer) end
  coroutine.resume(consumer)
end
