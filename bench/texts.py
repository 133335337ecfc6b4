#!/usr/bin/env python3
"""Writes large texts to compile, each of which is a program.

usage: bench/texts.py SHAPE SIZE     writes a text of SIZE bytes, as people write them
       bench/texts.py worst NAME     writes one that is hard to compile
       bench/texts.py list           names the shapes and the hard ones

A text is as large as the language allows, or as SIZE says: at most 1,048,576 bytes, 65,536 points, and 128
region variables a function. What is left of SIZE behind the last whole part is filled with empty lines.
"""
import itertools
import sys

NODE = """#include "regions.h"
struct node { int number; struct node *sameregion next; };
"""
LAST = "int main(void) { return 0; }\n"


def filled(size, head, part, last):
    """Returns the head, the parts 0, 1, .. as long as they fit, the last part, and empty lines up to the size."""
    written = [head]
    left = size - len(head) - len(last)
    for number in itertools.count():
        it = part(number)
        if len(it) > left:
            return "".join(written) + last + "\n" * left
        written.append(it)
        left -= len(it)


# Texts as people write them, and others of one shape


def functions(size):
    """Many small functions with comments."""

    def part(number):
        return f"""
/* Function {number:05d}: adds the numbers of a list to a start value, each step by
   the same factor, and gives what comes out of it to the caller. */
unsigned total_of_list_{number:05d}(struct node *first_node, unsigned start_value) {{
  while (first_node) {{
    start_value = start_value * 31u + first_node->number;
    first_node = first_node->next;
  }}
  return start_value;
}}
"""

    return filled(size, NODE, part, LAST)


def statements(size):
    """One function of many statements."""
    name = "the_counter_number_{}_of_this_long_function"

    def part(number):
        counter = number % 4
        return f"  {name.format(counter)} = {name.format((counter + 1) % 4)} + {number % 1000};\n"

    head = "int main(void) {\n" + "".join(f"  int {name.format(counter)} = 0;\n" for counter in range(4))
    return filled(size, head, part, "  return 0;\n}\n")


def names(size):
    """Long names with a long common beginning, each used twice."""
    stem = "a_name_that_is_very_long_" * 8

    def part(number):
        name = f"{stem}{number:06d}"
        return f"int {name};\nint f{number}(void) {{ return {name}; }}\n"

    return filled(size, "", part, LAST)


def strings(size):
    """Long strings."""
    letters = "".join(f"{chr(97 + at % 26)}{chr(65 + at % 7)}\\n\\x41\\101" for at in range(100))
    head = "void show(char *s) { while (*s) { putchar(*s); s = s + 1; } }\nint main(void) {\n"
    return filled(size, head, lambda number: f'  show("{number} {letters}");\n', "  return 0;\n}\n")


def global_variables(size):
    """As many words and names as a text can hold."""
    return filled(size, "", lambda number: f"int g{number}={number % 10};", LAST)


def parentheses(size):
    """Expressions at the greatest depth."""

    def part(number):
        return f"  x = {'(' * 190}{number % 10}{')' * 190};\n"

    return filled(size, "int main(void) {\n  int x;\n", part, "  return x;\n}\n")


SHAPES = {
    "functions": functions,
    "statements": statements,
    "names": names,
    "strings": strings,
    "globals": global_variables,
    "parentheses": parentheses,
}


# Hard ones


def pointers(count):
    """Returns declarations of so many pointers into one region."""
    return "".join(f"  struct node *p{at} = ralloc(r, struct node);\n" for at in range(count))


def linked(count, steps=7):
    """Returns stores, one for each of the pointers."""
    return "".join(f"  p{at}->next = p{(at + steps) % count};\n" for at in range(count))


def ring(count=120, rounds=268):
    """Pointers into one region, each of which is set to its neighbour in a loop, many times; the last is set to null
    at the end of the body. So facts fall away by one pointer a turn."""
    copies = "".join(f"    p{at} = p{at + 1};\n" for at in range(count - 1))
    head = f"{NODE}int main(void) {{\n  region r = newregion();\n  int i;\n{pointers(count)}"
    loop = f"  for (i = 0; i < 10; i++) {{\n{copies * rounds}    p{count - 1} = NULL;\n  }}\n"
    return f"{head}{loop}{linked(count)}  return 0;\n}}\n"


def nest(count=118, depth=60, times=4):
    """Loops in loops, each with copies round a ring of pointers."""
    written = [f"{NODE}int main(void) {{\n  region r = newregion();\n  region s = newregion();\n  int i = 0;\n{pointers(count)}"]
    for level in range(depth):
        written.append(f"  while (i < {level + 1}) {{\n  i = i + 1;\n")
        for at in range(count * times):
            written.append(f"  p{(at * 7 + level) % count} = p{(at * 7 + level + 1) % count};\n")
    written.append("  p0 = ralloc(s, struct node);\n")
    for level in range(depth):
        written.append(f"  p{level % count}->next = p{(level + 1) % count};\n  }}\n")
    return "".join(written) + "  return 0;\n}\n"


def calls(count=1000, parameters=20):
    """A ring of functions that pass their pointers on, shifted by one, and a call with a pointer of another region."""
    declared = ", ".join(f"struct node *a{at}" for at in range(parameters))
    shifted = ", ".join(f"a{(at + 1) % parameters}" for at in range(parameters))
    written = [NODE, *(f"struct node *f{at}(int n, {declared});\n" for at in range(count))]
    for at in range(count):
        written.append(
            f"struct node *f{at}(int n, {declared}) {{\n  if (n == 0) return a0;\n  a0->next = a1;\n  a2->next = a3;\n"
            f"  a1 = f{(at + 1) % count}(n - 1, {shifted});\n  a1->next = a0;\n  return a1;\n}}\n"
        )
    all_p = ", ".join(["p"] * parameters)
    last_q = ", ".join(["p"] * (parameters - 1) + ["q"])
    written.append(
        "int main(void) {\n  region r = newregion(), s = newregion();\n"
        "  struct node *p = ralloc(r, struct node);\n  struct node *q = ralloc(s, struct node);\n"
        f"  p = f0(3, {all_p});\n  p = f{count - 1}(3, {last_q});\n  return 0;\n}}\n"
    )
    return "".join(written)


def live(count=110, deletions=13400):
    """Pointers that live over thousands of deletions."""
    written = [f"{NODE}int main(void) deletes {{\n  region r = newregion();\n  region d;\n  int t = 0;\n{pointers(count)}"]
    for number in range(deletions):
        written.append("  d = newregion();\n  deleteregion(d);\n")
        if number % 8 == 0:
            written.append(f"  if (t) t = p{number % count}->number;\n")
    written += (f"  t = t + p{at}->number;\n" for at in range(count))
    return "".join(written) + "  return t;\n}\n"


def points():
    """As many points as a program may have, in the shortest text."""
    return f"int main(void){{ int x; {'x=1;' * 32765} return 0; }}\n"


def branches(count=100, number_of_branches=10600):
    """Pointers and thousands of branches on them."""
    written = [f"{NODE}int main(void) {{\n  region r = newregion();\n  int i;\n{pointers(count)}  for (i = 0; i < 10; i++) {{\n"]
    for number in range(number_of_branches):
        one, other = number * 7 % count, (number * 11 + 1) % count
        written.append(f"  if (p{one}) p{other} = p{one}; else p{(other + 3) % count} = NULL;\n")
    return "".join(written) + f"  }}\n{linked(count)}  return 0;\n}}\n"


def shift(count=116, length=30000):
    """Facts fall away by one pointer a turn, and each turn goes through a long body."""
    copies = "".join(f"    p{at} = p{at + 1};\n" for at in range(count - 1))
    padding = "".join("q=q;\n" if at % 20 == 19 else "q=q;" for at in range(length))
    head = f"{NODE}int main(void) {{\n  region r = newregion();\n  region s = newregion();\n  int i;\n"
    declared = f"  struct node *q = ralloc(r, struct node);\n{pointers(count)}"
    loop = f"  for (i = 0; i < 10; i++) {{\n{copies}    p{count - 1} = ralloc(s, struct node);\n{padding}  }}\n"
    return f"{head}{declared}{loop}{linked(count)}  return 0;\n}}\n"


def structs(count=37000):
    """Structs of 4,096 cells that nothing uses."""
    lines = (f"struct s{at}{{int a[4096];}};" + ("\n" if at % 20 == 19 else "") for at in range(count))
    return "".join(lines) + "\n" + LAST


WORST = {
    "ring": ring,
    "nest": nest,
    "calls": calls,
    "live": live,
    "points": points,
    "branches": branches,
    "shift": shift,
    "structs": structs,
}


def main(words):
    if words == ["list"]:
        print("shapes:", *SHAPES)
        print("worst:", *WORST)
        return 0
    if len(words) == 2 and words[0] == "worst" and words[1] in WORST:
        sys.stdout.write(WORST[words[1]]())
        return 0
    if len(words) == 2 and words[0] in SHAPES and words[1].isdigit():
        sys.stdout.write(SHAPES[words[0]](int(words[1])))
        return 0
    print(__doc__, end="", file=sys.stderr)
    return 2


if __name__ == "__main__":
    sys.exit(main(sys.argv[1:]))
