-- The count-down loop, n times round; prints nanoseconds of CPU time for each.
local n = tonumber(arg[1])
local function loop(n)
  local a = 0
  repeat
    a = a + 1
    n = n - 1
  until n == 0
  return a
end
local from = os.clock()
loop(n)
print(string.format("%.3f", (os.clock() - from) * 1e9 / n))
