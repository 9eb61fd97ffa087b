local limit = 60000
local composite = {}

local function primes()
  local count = 0
  for n = 0, limit - 1 do
    composite[n] = n < 2
  end
  for n = 0, limit - 1 do
    if not composite[n] then
      count = count + 1
      for m = n * n, limit - 1, n do
        composite[m] = true
      end
    end
  end
  return count
end

for _ = 1, 20 do
  print(primes())
end
