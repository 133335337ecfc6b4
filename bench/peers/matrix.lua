-- The kernel matrix in Lua 5.4: the same input, steps and output as those of kernels/matrix.c.

local rounds, width = io.read(1):byte(), io.read(1):byte()
local left, right, product = {}, {}, {}
local sum = 0
for i = 0, width * width - 1 do
    left[i + 1] = i & 15
    right[i + 1] = i & 7
end
for round = 0, rounds - 1 do
    for row = 0, width - 1 do
        for column = 1, width do
            local entry = round
            for i = 1, width do entry = entry + left[row * width + i] * right[(i - 1) * width + column] end
            product[row * width + column] = entry
            sum = (sum * 31 + entry) & 0xffffffff
        end
    end
end
print(sum)
