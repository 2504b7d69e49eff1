local size = 24
local left, right, product = {}, {}, {}
local sum, total = 0, 0
for i = 1, size do
  left[i], right[i], product[i] = {}, {}, {}
  for j = 1, size do
    left[i][j] = (i * j) % 7
    right[i][j] = (i + j) % 5
  end
end
for round = 1, 10 do
  for i = 1, size do
    for j = 1, size do
      sum = 0
      for k = 1, size do
        sum = sum + left[i][k] * right[k][j]
      end
      product[i][j] = sum
    end
  end
end
for i = 1, size do
  for j = 1, size do
    total = total + product[i][j]
  end
end
print(total)
