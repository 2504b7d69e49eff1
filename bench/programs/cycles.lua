-- Four tasks as coroutines, each resumed when its moment has come; where several have, the one of the shortest period first.
local sum, ended = 0, 0

local function work(cycle, turns)
  local made = 0
  for i = 1, turns do
    made = (made + i * cycle) % 1000
  end
  sum = (sum + made) % 1000000
end

local function task(period, cycles, turns)
  local body = coroutine.create(function()
    local moment = 0
    for cycle = 1, cycles do
      moment = moment + period
      coroutine.yield(moment)
      work(cycle, turns)
    end
    ended = ended + 1
    if ended == 4 then print(sum) end
  end)
  local _, moment = coroutine.resume(body)
  return { body = body, moment = moment }
end

local tasks = { task(10, 4000, 10), task(20, 2000, 30), task(40, 1000, 60), task(80, 500, 120) }
while #tasks > 0 do
  local first = 1
  for number = 2, #tasks do
    if tasks[number].moment < tasks[first].moment then first = number end
  end
  local _, moment = coroutine.resume(tasks[first].body)
  if moment then tasks[first].moment = moment else table.remove(tasks, first) end
end
