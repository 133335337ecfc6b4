#!/usr/bin/env python3
"""Writes large images, which show by their output when they begin to run.

usage: bench/images.py SHAPE SIZE     writes an image of about SIZE bytes to standard output
       bench/images.py list           names the shapes

`main` writes 8,192 bytes, some of which a run hands on at once, then waits for a byte of input, and ends. What makes
the image large stands beside it and is never run: a global of bytes (data), a function as dense as `rc compile` writes
one (code), or one of the shortest instructions alone (tiny). docs/IMAGE.md has the format.
"""
import sys

# The instructions that are used, by their numbers.
INT, GET, SET, ADD, MUL, SUB, LT, RET, PUT, GETC, JZ, BACK, POP = 0, 5, 6, 7, 9, 8, 20, 40, 41, 42, 44, 45, 46
# The tags of an int, of a cell of type char, and of no result.
INT_TAG, CHAR_CELL, NO_RESULT = 0, 2, 5
OUTPUT = 8192
LOCALS = 100


def number(value):
    """Returns a number as images spell it."""
    spelled = bytearray()
    while value > 127:
        spelled.append(value & 127 | 128)
        value >>= 7
    return bytes([*spelled, value])


def function(locals_length, result, instructions, lines):
    """Returns a function without parameters, of int locals. The lines are runs: how many instructions, and their line."""
    length = sum(count for count, _ in lines)
    runs = b"".join(number(count) + number(line) for count, line in lines)
    head = number(0) + number(locals_length) + bytes([INT_TAG]) * locals_length + bytes([result])
    return head + number(length) + b"".join(instructions) + number(len(lines)) + runs


def main_function():
    instructions = [
        bytes([INT]) + number(OUTPUT) + bytes([SET, 0]),
        bytes([GET, 0, JZ, 12]),  # instruction 2: the head of the loop
        bytes([INT, 65, PUT, POP]),
        bytes([GET, 0, INT, 1, SUB, 0, SET, 0, BACK, 2]),
        bytes([GETC, RET]),  # instruction 12
    ]
    return function(1, INT_TAG, instructions, [(14, 1)])


def image(types, global_variables, beside):
    """Returns an image of these types and globals, of `main`, and of the functions beside it."""
    functions = [main_function(), *beside]
    parts = [b"RCIM\x02", number(len(types)), *types, number(len(global_variables)), *global_variables, number(0)]
    return b"".join([*parts, number(len(functions)), *functions, number(0), number(0)])


def data(size):
    """One global of bytes."""
    one_char = number(1) + number(CHAR_CELL)
    letters = number(0) + number(size) + number(2) + bytes(size)
    return image([one_char], [letters], [])


def code(size):
    """A function of statements as `z = x + y; if (x < 7) z = x * 3;`, each on a line of its own."""
    instructions, lines, written, length, line = [], [], 0, 0, 2
    while written < size:
        at = line % (LOCALS - 3)
        behind = number(length + 12)
        part = bytes([GET, at, GET, at + 1, ADD, 0, SET, at + 2, GET, at, INT, 7, LT, 0, JZ]) + behind
        part += bytes([GET, at, INT, 3, MUL, 0, SET, at + 3])
        runs = [(4, line), (8, line + 1)]
        written += len(part) + sum(len(number(count) + number(of)) for count, of in runs)
        instructions.append(part)
        lines += runs
        length += 12
        line += 2
    return image([], [], [function(LOCALS, NO_RESULT, [*instructions, bytes([RET])], [*lines, (1, line)])])


def tiny(size):
    """A function of `1;` alone, on one line."""
    times = size // 3
    return image([], [], [function(0, NO_RESULT, [bytes([INT, 1, POP]) * times, bytes([RET])], [(2 * times + 1, 2)])])


SHAPES = {"data": data, "code": code, "tiny": tiny}


def main(words):
    if words == ["list"]:
        print(*SHAPES)
        return 0
    if len(words) == 2 and words[0] in SHAPES and words[1].isdigit():
        sys.stdout.buffer.write(SHAPES[words[0]](int(words[1])))
        return 0
    print(__doc__, end="", file=sys.stderr)
    return 2


if __name__ == "__main__":
    sys.exit(main(sys.argv[1:]))
