local sound, count = {}, 0
for round = 1, 20 do
  for i = 2, 4000 do sound[i] = true end
  count = 0
  for i = 2, 4000 do
    if sound[i] then
      count = count + 1
      local j = i + i
      while j <= 4000 do
        sound[j] = false
        j = j + i
      end
    end
  end
end
print(count)
