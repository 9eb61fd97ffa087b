local size = 60
local a, b, c = {}, {}, {}

local function multiply()
  for i = 0, size - 1 do
    for j = 0, size - 1 do
      local sum = 0
      for k = 0, size - 1 do
        sum = sum + a[i][k] * b[k][j]
      end
      c[i][j] = sum % 1000
    end
  end
end

for i = 0, size - 1 do
  a[i], b[i], c[i] = {}, {}, {}
  for j = 0, size - 1 do
    a[i][j] = i + j
    b[i][j] = (i * i + 3 * j + 1) % 7
  end
end
for _ = 1, 10 do
  multiply()
  for i = 0, size - 1 do
    for j = 0, size - 1 do
      a[i][j] = c[i][j]
    end
  end
end
print(c[1][2])
