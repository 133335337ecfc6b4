-- The kernel list in Lua 5.4: the same input, steps and output as those of kernels/list.c.

local rounds = io.read(1):byte()
local sum = 0
for round = 0, rounds - 1 do
    local first = nil
    for i = 0, 19999 do first = {value = i ~ round, next = first} end
    local cell = first
    while cell do
        sum = (sum * 31 + cell.value) & 0xffffffff
        cell = cell.next
    end
end
print(sum)
