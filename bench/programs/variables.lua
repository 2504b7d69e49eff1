local counts = { sum = 0, turn = 0 }
while counts.turn < 300000 do
  counts.sum = (counts.sum + counts.turn) % 997
  counts.turn = counts.turn + 1
end
print(counts.sum)
