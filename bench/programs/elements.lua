local cells, turn = {}, 0
for i = 1, 10 do cells[i] = 0 end
while turn < 300000 do
  cells[3] = (cells[4] + turn) % 997
  cells[4] = cells[3]
  turn = turn + 1
end
print(cells[4])
