local longest, start = 0, 0
for first = 1, 3000 do
  local n, steps = first, 0
  while n ~= 1 do
    if n % 2 == 0 then n = n // 2 else n = 3 * n + 1 end
    steps = steps + 1
  end
  if steps > longest then longest, start = steps, first end
end
print(start, longest)
