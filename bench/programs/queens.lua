local free, rising, falling, solutions = {}, {}, {}, 0
for line = 1, 8 do free[line] = true end
for line = -7, 16 do rising[line], falling[line] = true, true end

local function place(row)
  for column = 1, 8 do
    if free[column] and rising[row + column] and falling[row - column] then
      if row == 8 then
        solutions = solutions + 1
      else
        free[column], rising[row + column], falling[row - column] = false, false, false
        place(row + 1)
        free[column], rising[row + column], falling[row - column] = true, true, true
      end
    end
  end
end

place(1)
print(solutions)
