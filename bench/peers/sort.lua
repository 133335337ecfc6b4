-- The kernel sort in Lua 5.4: the same input, steps and output as those of kernels/sort.c.

local rounds = io.read(1):byte()
local numbers, counts = {}, {}
local random, sum = 1, 0
for _ = 1, rounds do
    for i = 1, 64 do counts[i] = 0 end
    for i = 1, 1000 do
        random = (random * 1103515245 + 12345) & 0xffffffff
        numbers[i] = random >> 16 & 1023
        local counted = (numbers[i] & 63) + 1
        counts[counted] = counts[counted] + 1
    end
    for i = 2, 1000 do
        local number, place = numbers[i], i
        while place > 1 and numbers[place - 1] > number do
            numbers[place] = numbers[place - 1]
            place = place - 1
        end
        numbers[place] = number
    end
    for i = 1, 1000 do sum = (sum * 31 + numbers[i]) & 0xffffffff end
    for i = 1, 64 do sum = (sum * 31 + counts[i]) & 0xffffffff end
end
print(sum)
