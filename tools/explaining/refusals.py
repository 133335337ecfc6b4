"""What can be said of a refused text from the line that is named."""
import re

from explaining.hints import HABITS
from explaining.messages import listed
from explaining.texts import BUILT_IN, RESERVED


def names_in(text, line):
    return [it for it in text.on(line) if it.kind == "name" and it.text not in RESERVED]


def unknown_names(text, line):
    """Names what of a line is declared nowhere, or declared as a function and defined nowhere."""
    read = text.read
    known = {it.name for it in read.functions + read.declared + read.globals} | set(BUILT_IN) | set(read.structs)
    for function in read.functions:
        known |= {it.name for it in function.parameters + function.locals}
    known |= {it.name for fields in read.structs.values() for it in fields}
    names = dict.fromkeys(it.text for it in names_in(text, line))
    missing = [it for it in names if it not in known]
    defined = {it.name for it in read.functions} | set(BUILT_IN)
    undefined = [it for it in names if it in {it.name for it in read.declared} - defined]
    if missing:
        yield f"declared nowhere: {', '.join(missing)}"
    if undefined:
        yield f"declared and defined nowhere: {', '.join(undefined)}"


def earlier_names(text, line):
    """Says where else the names that this line declares are declared."""
    read, function = text.read, text.read.function_at(line)
    groups = [[*read.globals, *read.functions], *read.structs.values()]
    groups += [function.parameters + function.locals] if function else []
    for group in groups:
        for it in group:
            lines = sorted({other.line for other in group if other.name == it.name and other.line != line})
            if it.line == line and lines and it.name:
                yield f"{it.name} is declared on line {listed(map(str, lines))} too"


def arguments_from(tokens, at):
    """Counts the arguments of a call whose parenthesis is this token."""
    depth, commas = 0, 0
    for number, it in enumerate(tokens[at:]):
        depth += {"(": 1, "[": 1, ")": -1, "]": -1}.get(it.text, 0)
        if depth == 0:
            return 0 if number == 1 else commas + 1
        commas += depth == 1 and it.text == ","
    return 0


def wrong_arguments(text, line):
    for at in text.read.calls_on(line):
        name, given = text.tokens[at].text, arguments_from(text.tokens, at + 1)
        head = text.read.head(name)
        if head and head[0] != given:
            yield f"{name} has {counted(head[0], 'parameter')}, and this call {counted(given, 'argument')}"


def counted(number, what):
    return f"{number} {what}{'' if number == 1 else 's'}"


def deleting_names(text, line):
    names = [text.tokens[at].text for at in text.read.calls_on(line)]
    return dict.fromkeys(it for it in names if (text.read.head(it) or (0, False))[1])


def deleting_calls(text, line):
    function, names = text.read.function_at(line), deleting_names(text, line)
    if function and names:
        name = function.name
        yield f"{name} calls {listed(names)}: write deletes behind the head of {name} (line {function.line})"


def missing_semicolon(text, line):
    """Tells where a line begins with a word that can't follow the end of an expression in the line before."""
    at = text.firsts.get(line, 0)
    if at == 0:
        return
    before, it = text.tokens[at - 1], text.tokens[at]
    ends = before.kind in ("number", "string", "character") or before.text == "]"
    ends = ends or (before.kind == "name" and before.text not in ("else", "do", "deletes"))
    if ends and (it.kind in ("name", "number") or it.text == "}"):
        yield f"line {before.line} ends without a ;"


def deleting_inside(text, line):
    names = deleting_names(text, line)
    if names:
        yield f"what deletes is the call of {listed(names)}"


def which_function(text, line):
    found = [it.name for it in text.read.functions if it.line == line]
    if found:
        yield f"it is {listed(found)}"


# What can be said of single refusals, from the line that they name.
DETAILS = {
    4: missing_semicolon,
    6: unknown_names,
    7: earlier_names,
    9: wrong_arguments,
    11: deleting_calls,
    12: deleting_inside,
    15: which_function,
}


def habits(number, words):
    """Returns what to write for the C of a line that isn't in RC, of the habits that may cause this refusal."""
    found = [(re.search(form, words), text) for numbers, form, text in HABITS if number in numbers]
    return [text.format(it.group()) for it, text in found if it][:2]


def declared_in(text):
    """Returns what a text declares outside of functions: each name, its line, and whether it is defined there."""
    read = text.read
    found = [(it.name, it.line, True) for it in read.functions + read.globals]
    found += [(it.name, it.line, False) for it in read.declared]
    for at, it in enumerate(text.tokens):
        if it.text == "struct" and [other.text for other in text.tokens[at + 2 : at + 3]] == ["{"]:
            found.append((f"struct {text.tokens[at + 1].text}", it.line, True))
    return found


def apart(number, files, at, line):
    """Says of a line of one of several files, each a name and a text, what of the others keeps it apart."""
    text = files[at][1]
    if number == 34:
        defined = {it.name for _, other in files for it in other.read.functions} | set(BUILT_IN)
        missing = dict.fromkeys(text.tokens[call].text for call in text.read.calls_on(line))
        yield f"defined in no file: {', '.join(it for it in missing if it not in defined)}"
        return
    for name in dict.fromkeys(it for it, there, _ in declared_in(text) if there == line):
        for other, earlier in files[:at]:
            all_there = [it for it in declared_in(earlier) if it[0] == name]
            lines = [str(there) for _, there, is_defined in all_there if is_defined or number == 32]
            if lines:
                yield f"{name} stands in {other} on line {listed(lines)}"
