local function main()
  local sum = 0
  local i = 0
  while i < 4000 do
    local j = 0
    while j < 4000 do
      sum = sum + i * j
      j = j + 1
    end
    i = i + 1
  end
  print(sum)
end

main()
