-- The kernel fib in Lua 5.4: the same input, steps and output as those of kernels/fib.c.

local function fibonacci(n)
    if n < 2 then return n end
    return fibonacci(n - 1) + fibonacci(n - 2)
end

print(fibonacci(io.read(1):byte()))
