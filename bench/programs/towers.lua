local moves = 0
local function move(height, from, to)
  if height > 0 then
    move(height - 1, from, 6 - from - to)
    moves = moves + 1
    move(height - 1, 6 - from - to, to)
  end
end
move(14, 1, 3)
print(moves)
