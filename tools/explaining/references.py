"""What hinders a deletion: locals that are used behind it, callers that wait, and cells."""
import collections

from explaining.messages import listed, noted
from explaining.texts import END

# So many calls that may wait are told of a deletion.
MOST_CALLS = 20


def ways_on(code, at, decided):
    """Returns what may run behind an instruction. Where constant conditions are decided, these have one way."""
    name, operands = code[at].name, code[at].operands
    if name in ("JUMP", "BACK"):
        return operands
    if name != "JZ":
        return [] if name == "RET" else [at + 1]
    if decided and code[at - 1].name == "INT":
        return [at + 1] if code[at - 1].operands[0] else operands
    return [at + 1, operands[0]]


def use_behind(code, at, local, decided=False):
    """Returns the line of the nearest use of a local behind an instruction that no way sets before, or None."""
    waiting, seen = collections.deque(ways_on(code, at, decided)), set()
    while waiting:
        here = waiting.popleft()
        if here in seen:
            continue
        seen.add(here)
        if code[here].name == "GET" and code[here].operands[0] == local:
            return code[here].line
        if code[here].name != "SET" or code[here].operands[0] != local:
            waiting += ways_on(code, here, decided)
    return None


def uses(program, function, at):
    """Names the locals that an instruction pins, each with the line of the use for which it counts."""
    code = program.code(function)
    lines = {it: use_behind(code, at, it) for it in code[at].pins}
    return ", ".join(program.local(function, it) + (f" (line {line})" if line else "") for it, line in lines.items())


def calls_of(image):
    """Returns all calls, as the caller, the instruction in it, and what is called."""
    return [
        (number, at, it.operands[0])
        for number, function in enumerate(image.functions)
        for at, it in enumerate(function.code)
        if it.name == "CALL"
    ]


def reached(start, steps):
    """Returns how many steps it is at least from a start to each that can be reached, in this order."""
    far, waiting = {start: 0}, collections.deque([start])
    while waiting:
        here = waiting.popleft()
        for there in steps.get(here, ()):
            if there not in far:
                far[there] = far[here] + 1
                waiting.append(there)
    return far


def steps_of(pairs):
    steps = {}
    for one, other in pairs:
        steps.setdefault(one, []).append(other)
    return steps


def waiting_calls(image, function):
    """Returns the calls that may wait while a function runs and pin something, from the nearest on: each with
    whether it surely waits, as no way from main to the function is without it. Returns how many more there are, too."""
    calls = calls_of(image)
    from_main = reached(image.main, steps_of((one, other) for one, _, other in calls))
    leading = reached(function, steps_of((other, one) for one, _, other in calls))
    calls = [it for it in calls if it[0] in from_main and it[2] in leading]
    pinning = [it for it in calls if image.functions[it[0]].code[it[1]].pins]
    pinning.sort(key=lambda it: (leading[it[2]], it))
    return [(it, is_needed(image.main, function, calls, it)) for it in pinning[:MOST_CALLS]], len(pinning[MOST_CALLS:])


def is_needed(start, end, calls, call):
    """Whether no way from a function to another is without a call."""
    return end not in reached(start, steps_of((it[0], it[2]) for it in calls if it != call))


def deletions_on(image, line):
    """Returns the deletions of this line that a run can come to, as the function and the instruction in it."""
    from_main = reached(image.main, steps_of((one, other) for one, _, other in calls_of(image)))
    return [
        (number, at)
        for number, function in enumerate(image.functions)
        for at, it in enumerate(function.code)
        if it.name == "DELETE" and it.line == line and number in from_main
    ]


def hindering_fields(read, struct):
    """Returns the fields of a struct of which a cell counts as a reference."""
    fields = read.structs.get(struct.partition(" ")[2], [])
    return [it for it in fields if hinders(read, it)]


def hinders(read, variable):
    if not variable.type.stars and variable.type.base.startswith("struct"):
        return bool(hindering_fields(read, variable.type.base))
    return variable.can_hinder()


def element_lines(tokens):
    """Returns the lines on which objects are made that are plain pointers or handles themselves."""
    lines, open_calls = [], []
    for before, it in zip([END, END] + tokens, [END] + tokens):
        if it.text == "(":
            open_calls.append((before.text in ("ralloc", "rarrayalloc"), before.line))
        elif it.text == ")" and open_calls:
            is_made, line = open_calls.pop()
            if is_made and before.text in ("*", "region"):
                lines.append(line)
    return sorted(set(lines))


def cells_that_may(text):
    """Says which cells of a program can name a region from outside, or nothing where none can."""
    read = text.read
    names = [it.name for it in read.globals if hinders(read, it)]
    fields = {name: [it.name for it in hindering_fields(read, f"struct {name}")] for name in read.structs}
    cells = [f"struct {name} ({', '.join(found)})" for name, found in fields.items() if found]
    lines = element_lines(text.tokens)
    if lines:
        cells.append(f"elements that are made on line {listed(map(str, lines))}")
    if names:
        yield f"a global may name it: {listed(names)}"
    if cells:
        yield f"a cell of an object in another region may name it: {listed(cells)}"
    if names or cells:
        yield "set such a one to NULL before the deletion"


class References:
    """Tells what hinders the deletions of a line."""

    def __init__(self, program, text, place):
        self.program, self.text, self.place = program, text, place

    def told(self, line):
        deletions = deletions_on(self.program.image, line)
        self.is_alone = len(deletions) == 1
        for number, (function, at) in enumerate(deletions, 1):
            if len(deletions) > 1:
                name = self.program.function(function)
                yield noted(f"deletion {number} of {len(deletions)} on this line, in {name}:")
            yield from self.of_deletion(function, at)

    def of_deletion(self, function, at):
        yield from map(noted, self.own_locals(function, at))
        calls, more = waiting_calls(self.program.image, function)
        for call, is_sure in calls:
            yield self.of_caller(*call, is_sure)
            yield from map(noted, self.by_constants(*call[:2]))
        if more:
            yield noted(f"and {more} more calls may wait whose callers use locals behind them")
        if self.text and not self.is_handle_used(function, at):
            places = [(function, at)] + [call[:2] for call, _ in calls]
            pins = [(place, it) for place, here in places for it in self.program.code(place)[here].pins]
            names = [self.program.local(*it) for it in pins]
            yield from map(noted, list(cells_that_may(self.text)) or [self.without_cells(names, more)])

    def without_cells(self, names, more):
        """Says what is left where no cell can name the region: if it is one local alone, which."""
        told = "no global and no cell of an object can name it from outside"
        return f"{told}, so it is {names[0]}" if len(names) == 1 and not more and self.is_alone else told

    def own_locals(self, function, at):
        name, code = self.program.function(function), self.program.code(function)
        yield from self.by_cell(code, at)
        if not code[at].pins:
            yield f"in {name} no local is used behind it"
            return
        yield f"in {name} these locals are used behind it: {uses(self.program, function, at)}"
        yield "of these, what leads into the region hinders it: delete behind that use, or set it before"
        if self.is_handle_used(function, at):
            handle = self.program.local(function, code[at - 1].operands[0])
            yield f"{handle} is the handle itself, and hinders it for sure"
        yield from self.by_constants(function, at)

    def by_cell(self, code, at):
        """Tells of a handle that is read from a cell, which then names the region too."""
        if code[at - 1].name == "LOAD" and code[at - 2].name == "GLOBAL":
            yield "the global that the handle is read from names it too, and hinders it for sure"
        elif code[at - 1].name == "LOAD":
            yield "the cell that the handle is read from names it too, and hinders it unless it lies in that region"
        if code[at - 1].name == "LOAD":
            yield "read the handle into a local, set where it was to NULL, and delete by the local"

    def is_handle_used(self, function, at):
        """Whether the deletion takes its region from a local that is used behind it."""
        code = self.program.code(function)
        return code[at - 1].name == "GET" and code[at - 1].operands[0] in code[at].pins

    def by_constants(self, function, at):
        """Tells the locals that count only since a constant condition counts as if it could go both ways."""
        code = self.program.code(function)
        found = [it for it in code[at].pins if use_behind(code, at, it) and not use_behind(code, at, it, decided=True)]
        lines = sorted({it.line for test, it in zip(code[1:], code) if test.name == "JZ" and it.name == "INT"})
        if found:
            names = listed(self.program.local(function, it) for it in found)
            where = listed(map(str, lines))
            yield f"{names}: only since a constant condition counts as if it could go both ways (line {where})"
            yield "write for (;;) for while (1)"

    def of_caller(self, caller, at, callee, is_sure):
        line = self.program.code(caller)[at].line
        wait = "a caller that waits" if is_sure else "may wait"
        name, called = self.program.function(caller), self.program.function(callee)
        used = uses(self.program, caller, at)
        return f"{self.place(line)}: {wait}: {name}, line {line}, uses behind its call of {called}: {used}"
