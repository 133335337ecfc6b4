-- The kernel collatz in Lua 5.4: the same input, steps and output as those of kernels/collatz.c.

local last = io.read(1):byte() * 500
local sum = 0
for first = 1, last do
    local number, steps = first, 0
    while number ~= 1 do
        if number % 2 == 0 then number = number // 2 else number = 3 * number + 1 end
        steps = steps + 1
    end
    sum = (sum * 31 + steps) & 0xffffffff
end
print(sum)
