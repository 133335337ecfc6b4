-- The kernel hop in Lua 5.4: the same input, steps and output as those of kernels/hop.c.

local rounds = io.read(1):byte() * 10
local sum = 0
local first = nil
for i = 0, 4999 do first = {value = i, next = first} end
for _ = 1, rounds do
    local cell = first
    while cell do
        sum = (sum * 31 + cell.value) & 0xffffffff
        cell = cell.next
    end
    cell = first
    while cell do
        cell.value = cell.value + 1
        cell = cell.next
    end
end
print(sum)
