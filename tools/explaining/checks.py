"""Why checks of annotations are kept."""
import collections
import re
import time

from explaining.hints import BESIDE, KEPT, LATE, TRIED
from explaining.images import EFFECTS, NO_RESULT, NOTES
from explaining.messages import Row, listed, noted
from explaining.programs import Program, misfit
from explaining.references import calls_of
from explaining.texts import END, Type


# A value as the code makes it: the instruction, its operands, the values that it takes, and where it stands.
Value = collections.namedtuple("Value", "name operands parts at")


class Values:
    """The values of a function's code: what each store takes, and what is assigned to each local."""

    def __init__(self, image, function, named):
        """The locals from `named` on are hidden: they keep values for a while, and are looked through."""
        self.image, self.named = image, named
        self.stores, self.assigned, self.kept = {}, {}, {}
        self.pile = []
        for at, it in enumerate(image.functions[function].code):
            self.take(at, it)

    def take(self, at, it):
        takes, gives = (self.count(it, word) for word in EFFECTS[it.name])
        parts = self.pile[len(self.pile) - takes :]
        del self.pile[len(self.pile) - takes :]
        if it.name == "STORE":
            self.stores[at] = parts
        elif it.name == "SET" and parts:
            self.assign(it.operands[0], parts[0], at)
        if gives:
            hidden = self.kept.get(it.operands[0]) if it.name == "GET" else None
            self.pile.append(hidden or Value(it.name, it.operands, parts, at))

    def assign(self, local, value, at):
        if local >= self.named:
            self.kept[local] = value
        else:
            self.assigned.setdefault(local, []).append((at, value))

    def count(self, it, word):
        if word == "path":
            path = self.image.paths[it.operands[0]]
            return 1 + (path.shift != 0) + len(path.indices) + (it.name == "STORE")
        if word in ("arguments", "result"):
            called = self.image.functions[it.operands[0]]
            return called.parameters if word == "arguments" else int(called.result[0] != NO_RESULT)
        return len(self.pile) if word == "all" else int(word)

    def origin(self, value, at):
        """Returns what a local was last assigned before, in the order of the code, and any other value itself."""
        for _ in range(8):
            sets = [it for it in self.assigned.get(value.operands[0], ()) if it[0] < at] if value.name == "GET" else []
            if not sets:
                return value
            at, value = sets[-1]
        return value


Store = collections.namedtuple("Store", "function at line note kept")


def annotation(image, it):
    """Returns the annotation of the cell that an instruction loads or stores, or None."""
    path = image.paths[it.operands[0]]
    return NOTES.get(image.types[path.type][path.offset][0])


def annotated_stores(image):
    """Returns the stores to annotated cells in the order of a report, which is that of the text: only the third part of
    a for has its code elsewhere. On one line with what it stands before, it can't be told apart."""
    stores = []
    for number, function in enumerate(image.functions):
        for at, it in enumerate(function.code):
            note = annotation(image, it) if it.name == "STORE" else None
            if note:
                stores.append(Store(number, at, it.line, note, it.operands[1] == 0))
    return sorted(stores, key=lambda it: (it.function, it.line))


# An assignment to a place, by the numbers of its first word, of its =, and of the ; behind it.
Assignment = collections.namedtuple("Assignment", "first mark end")


def assignments_on(text, line):
    """Returns the assignments to places that begin on a line."""
    function = text.read.function_at(line)
    local = {it.name for it in function.parameters + function.locals} if function else set()
    found = []
    for at in text.numbers_on(line):
        it = text.tokens[at]
        begins = at and text.tokens[at - 1].text in ("{", "}", ";", ")", "else", "do")
        read = assignment_at(text.tokens, at) if begins and (it.kind == "name" or it.text in ("*", "(")) else None
        if read and not (read.mark == at + 1 and it.text in local):
            found.append(read)
    return found


def assignment_at(tokens, first):
    depth, mark = 0, None
    for at in range(first, len(tokens)):
        text = tokens[at].text
        if depth == 0 and text == "=" and mark is None:
            mark = at
        if depth == 0 and text in (";", ")", "{", "}"):
            return Assignment(first, mark, at) if text == ";" and mark else None
        depth += {"(": 1, "[": 1, ")": -1, "]": -1}.get(text, 0)
    return None


def spelled(tokens):
    """Returns words one behind the other, with a blank between names alone."""
    pairs = zip([END, *tokens], tokens)
    return "".join(" " * (before.kind == "name" == it.kind) + it.text for before, it in pairs)


class Places:
    """The ways in which a place can be cut into its pointer and the rest, the shortest rest first."""

    def __init__(self, tokens, assignment):
        self.words = tokens[assignment.first : assignment.mark]

    def cuts(self):
        depth = 0
        for at in range(len(self.words) - 1, 0, -1):
            text = self.words[at].text
            depth += {"]": 1, ")": 1, "[": -1, "(": -1}.get(text, 0)
            if depth == 0 and text in ("->", "["):
                yield self.words[:at], "", spelled(self.words[at:])
        if self.words[0].text == "*":
            yield self.words[1:], "*", ""


class Trials:
    """Tries changes of a statement by rc itself: with which of them is its check removed?"""

    MOST_SECONDS = 30

    def __init__(self, scratch, text, image, types):
        self.scratch, self.text, self.image = scratch, text, image
        self.types = {number: it for it, number in types.items()}
        self.types.update(enumerate(Type(f"struct {it}", ()) for it in text.read.structs))
        self.until, self.is_late = time.monotonic() + self.MOST_SECONDS, False

    def statement(self, store):
        """Returns the assignment that a store is of, where that is clear, or None."""
        found = assignments_on(self.text, store.line)
        code = self.image.functions[store.function].code
        stores = [at for at, it in enumerate(code) if it.name == "STORE" and it.line == store.line]
        if len(found) == 1:
            return found[0]
        return found[stores.index(store.at)] if len(found) == len(stores) else None

    def removing(self, number, store):
        """Returns the first change with which a check is removed, and the pointer of the place, or None."""
        statement = self.statement(store)
        if statement is None:
            return None
        for pointer, before, rest in Places(self.text.tokens, statement).cuts():
            for change, text in self.changes(store, statement, pointer, before, rest):
                self.is_late = self.is_late or time.monotonic() > self.until
                if self.is_late:
                    return None
                report = self.scratch.checks(self.edited(statement, text))
                if report and not report.rows[number].kept:
                    return change, spelled(pointer)
                if report is None:
                    break
        return None

    def changes(self, store, statement, pointer, before, rest):
        """Returns the texts to be tried in place of a statement, each with what is changed."""
        value = self.source(statement.mark + 1, statement.end)
        if self.is_local(store, pointer):
            name, head, change = pointer[0].text, "", "used"
        elif self.spelled_type(store):
            name, head, change = "explain_at", f"{self.spelled_type(store)} *explain_at = {spelled(pointer)}; ", "once"
        else:
            return
        place, made = f"{before}{name}{rest}", self.made_in(statement, name)
        guarded = f"{{ {head}if ({name}) {{ {place} = {{}}; }} }}"
        yield change, guarded.replace("{}", value)
        if made and not head:
            yield "regionof", f"{place} = {made};"
        if made:
            yield f"{change} and regionof", guarded.replace("{}", made)

    def is_local(self, store, pointer):
        function = self.text.read.functions[store.function]
        return len(pointer) == 1 and pointer[0].text in {it.name for it in function.parameters + function.locals}

    def source(self, first, end):
        """Returns the text of some words, with all that stands between them."""
        tokens = self.text.tokens
        return self.text.data[tokens[first].at : tokens[end - 1].end].decode("latin-1")

    def made_in(self, statement, pointer):
        """Returns the right side with its object made in the region of the pointer, or None where it makes none."""
        tokens, first = self.text.tokens, statement.mark + 1
        if tokens[first].text not in ("ralloc", "rarrayalloc"):
            return None
        depth, at = 0, first + 2
        while depth > 0 or tokens[at].text != ",":
            depth += {"(": 1, "[": 1, ")": -1, "]": -1}.get(tokens[at].text, 0)
            at += 1
        return f"{tokens[first].text}(regionof({pointer}){self.source(at, statement.end)}"

    def spelled_type(self, store):
        """Returns the type that the place's pointer points to, or nothing where the text has no name for it."""
        it = self.image.functions[store.function].code[store.at]
        found = self.types.get(self.image.paths[it.operands[0]].type)
        return " ".join([found.base, *(f"*{it}" for it in found.stars)]) if found else ""

    def edited(self, statement, text):
        """Returns the program with a text in place of a statement, which keeps the lines of all that follows."""
        tokens, data = self.text.tokens, self.text.data
        start, end = tokens[statement.first].at, tokens[statement.end].end
        lost = data.count(b"\n", start, end) - text.count("\n")
        return data[:start] + text.encode("latin-1") + b"\n" * lost + data[end:]


class Causes:
    """Says of checks that are kept what it looks like, and what to write instead."""

    def __init__(self, program, text, trials, stores):
        self.program, self.text, self.trials, self.stores = program, text, trials, stores
        self.values = {}

    def of(self, number, store):
        """Returns what is told of a store, which is that row of the report."""
        if self.is_mixed(store):
            return [KEPT["unknown"]]
        site = Site(self.program, store, self.values_of(store.function))
        tried = self.trials.removing(number, store)
        if tried:
            return [self.by_trial(site, *tried), TRIED]
        looks = next(filter(None, self.by_look(site)), KEPT["unknown"])
        return [looks, LATE] if self.trials.is_late else [looks]

    def is_mixed(self, store):
        """Whether others of the store's line may stand in the report where it does in the code."""
        others = [it for it in self.stores if it.line == store.line]
        return len(others) > 1 and any(it.text == "for" for it in self.text.on(store.line))

    def values_of(self, function):
        if function not in self.values:
            read = self.program.functions[function]
            self.values[function] = Values(self.program.image, function, len(read.parameters + read.locals))
        return self.values[function]

    def by_trial(self, site, change, pointer):
        if change.endswith("regionof"):
            cause = "holder" if site.is_handle_loaded(site.value) else "other"
            return (KEPT[cause] + BESIDE.get(change, "")).format(pointer)
        if change == "used" and site.holder.name == "CALL":
            called = self.program.function(site.holder.operands[0])
            return KEPT["called"].format(pointer, called, site.line(site.holder))
        return KEPT[change].format(pointer)

    def by_look(self, site):
        """Yields what it looks like, the most telling first, and nothing where it doesn't."""
        yield self.by_handles(site)
        yield self.by_loads(site)
        yield self.by_regions(site)
        yield self.by_parameters(site)
        if site.value.name == "CALL":
            yield KEPT["returned"].format(self.program.function(site.value.operands[0]))

    def by_handles(self, site):
        if not site.is_handle_loaded(site.value):
            return ""
        return KEPT["handles"] if site.is_handle_loaded(site.holder) else KEPT["handle"].format(site.line(site.value))

    def by_loads(self, site):
        for it, what in ((site.value, "what is stored"), (site.holder, "the place")):
            if it.name == "LOAD" and annotation(self.program.image, it) is None:
                return KEPT["plain"].format(what, site.line(it))
        return ""

    def by_regions(self, site):
        regions = [site.region(it) for it in (site.holder, site.value)]
        if all(it.name in ("NEWREGION", "NEWSUB") for it in regions) and regions[0] != regions[1]:
            return KEPT["siblings"] if site.store.note == "parentptr" else ""
        read = self.program.functions[site.store.function]
        words = " ".join(it.text for it in self.text.tokens[read.first : read.end])
        return KEPT["compared"] if re.search(r"regionof \([^;{}]* (==|!=) regionof \(", words) else ""

    def by_parameters(self, site):
        read = self.program.functions[site.store.function]
        if not all(it.name == "GET" and it.operands[0] < len(read.parameters) for it in (site.holder, site.value)):
            return ""
        calls = [it for it in calls_of(self.program.image) if it[2] == site.store.function]
        lines = sorted({self.program.code(caller)[at].line for caller, at, _ in calls})
        return KEPT["parameters"].format(read.name, listed(map(str, lines))) if lines else ""


class Site:
    """A store with what its place's pointer and its value come from."""

    def __init__(self, program, store, values):
        self.program, self.store, self.values = program, store, values
        taken = values.stores[store.at]
        self.holder, self.value = (values.origin(it, store.at) for it in (taken[0], taken[-1]))

    def region(self, value):
        """Returns what the region comes from in which a value is made, or the value itself."""
        return self.values.origin(value.parts[0], value.at) if value.name in ("RALLOC", "RARRAY") else value

    def is_handle_loaded(self, value):
        return value.name in ("RALLOC", "RARRAY") and self.region(value).name == "LOAD"

    def line(self, value):
        return self.program.code(self.store.function)[value.at].line


def checks_told(rows, place, text, scratch):
    """Yields the lines that tell a report of checks, those of each check that is kept together. Without the text,
    or a folder for trials, no causes are told."""
    causes = causes_for(scratch, text, rows) if text and scratch else None
    for number, it in enumerate(rows):
        if it.kept:
            shown = text.shown(it.line) if text else []
            yield [f"{place(it.line)}: kept: {it.note}", *shown, *map(noted, causes(number) if causes else [])]


def causes_for(scratch, text, rows):
    """Returns what says the causes of a row. Where the text can't be matched with its image, none is known."""
    image, types = scratch.image(text.data), {}
    stores = annotated_stores(image) if image else []
    if [Row(it.line, it.note, it.kept) for it in stores] != rows or misfit(text.read, image, types):
        return lambda number: [KEPT["unknown"]]
    causes = Causes(Program(image, text), text, Trials(scratch, text, image, types), stores)
    return lambda number: causes.of(number, stores[number])
