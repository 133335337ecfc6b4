-- The kernel delete in Lua 5.4: the same input, steps and output as those of kernels/delete.c.

local n, live = io.read(1):byte(), io.read(1):byte() * 4000
local sum = 0
local kept, target = {}, {first = nil, second = nil}
for i = 1, live // 2 do kept[i] = target end
for i = 1, live // 4 do
    local cell = {first = target, second = nil}
    cell.second = cell
    kept[i] = cell
end
for i = 0, n * n * n - 1 do
    local cell = {first = nil, second = target}
    cell.first = cell
    if cell.first ~= cell.second then sum = (sum * 31 + i) & 0xffffffff end
end
if live > 0 and kept[1].first == target then sum = (sum + 1) & 0xffffffff end
print(sum)
