-- The kernel tree in Lua 5.4: the same input, steps and output as those of kernels/tree.c.

local rounds = io.read(1):byte()
local random, sum = 1, 0
for _ = 1, rounds do
    local root = {key = 16384, left = nil, right = nil}
    for _ = 1, 8000 do
        random = (random * 1103515245 + 12345) & 0xffffffff
        local added = {key = random >> 16 & 32767, left = nil, right = nil}
        local place, depth = root, 0
        while place ~= added do
            depth = depth + 1
            if added.key < place.key then
                if not place.left then place.left = added end
                place = place.left
            else
                if not place.right then place.right = added end
                place = place.right
            end
        end
        sum = (sum * 31 + depth) & 0xffffffff
    end
end
print(sum)
