"""Expressions and statements of RC, and how they are written."""

WIDTH = 110
POSTFIX, UNARY, LOWEST = 15, 14, 0
LEVELS = {"*": 13, "/": 13, "%": 13, "+": 12, "-": 12, "<<": 11, ">>": 11, "<": 10, ">": 10, "<=": 10, ">=": 10,
          "==": 9, "!=": 9, "&": 8, "^": 7, "|": 6, "&&": 5, "||": 4, "?": 3}
OPPOSITE = {"==": "!=", "!=": "==", "<": ">=", ">=": "<", ">": "<=", "<=": ">"}


class Term:
    """An expression of RC: its text, how tightly it binds, and the number type that it has there (None for others).
    `constant` is its value where it is a plain number, `calls` says whether it calls a function."""

    def __init__(self, text, level=POSTFIX, held=None, constant=None, calls=False, parts=None):
        self.text, self.level, self.held, self.constant = text, level, held, constant
        self.calls, self.parts = calls, parts

    def at(self, level):
        """The text as an operand where something at least so tight has to stand."""
        return self.text if self.level >= level else f"({self.text})"

    def simple(self):
        """Whether it is a name or a number, so that it may stand twice."""
        return self.text.replace("_", "a").isalnum() or self.constant is not None


def binary(op, left, right, held):
    level = LEVELS[op]
    inner = level
    if op in ("&&", "||", "&", "|", "^", "<<", ">>"):
        inner = max(level, LEVELS["&&"] if op == "||" else level)
    left_text, right_text = left.at(inner), right.at(level + 1)
    if op in ("&", "|", "^", "<<", ">>"):
        left_text = left.at(UNARY) if left.parts is None or left.parts[0] != op else left.at(level)
        right_text = right.at(UNARY)
    if op == "||":
        left_text, right_text = (side.at(LEVELS["&&"] + 1) if side.parts is None or side.parts[0] != "||"
                                 else side.at(level) for side in (left, right))
    return Term(f"{left_text} {op} {right_text}", level, held, None, left.calls or right.calls, (op, left, right))


def unary(op, operand, held=None):
    text = operand.at(UNARY)
    if op in "-+&" and text.startswith(op):
        text = f"({operand.text})"
    return Term(op + text, UNARY, held, None, operand.calls)


def number(value, held="int"):
    """A number of RC. The least int has no numeral of its own."""
    if value == -2147483648:
        return Term("-2147483647 - 1", LEVELS["-"], held, value)
    text = str(value) + ("u" if held == "unsigned" else "")
    return Term(text, POSTFIX if value >= 0 else UNARY, held, value)


def negated(term):
    """The opposite of a condition."""
    if term.parts and term.parts[0] in OPPOSITE:
        op, left, right = term.parts
        return binary(OPPOSITE[op], left, right, "int")
    if term.level == UNARY and term.text.startswith("!"):
        inner = term.text[1:]
        return Term(inner[1:-1], LOWEST, "int", None, term.calls) if inner.startswith("(") and closes(inner) \
            else Term(inner, UNARY, "int", None, term.calls)
    return unary("!", term, "int")


def closes(text):
    """Whether the first parenthesis of a text is closed by its last."""
    depth, quoted = 0, False
    for at, letter in enumerate(text):
        if letter in "\"'":
            return False
        depth += (letter == "(") - (letter == ")")
        if depth == 0:
            return at == len(text) - 1
    return quoted


def string(data):
    """Bytes as a string of RC."""
    known = {10: "\\n", 9: "\\t", 13: "\\r", 34: '\\"', 92: "\\\\"}
    return '"' + "".join(known.get(b) or (chr(b) if 32 <= b < 127 else f"\\{b:03o}") for b in data) + '"'


class Line:
    """A simple statement or a declaration."""

    def __init__(self, text):
        self.text = text


class Nest:
    """A statement with others in it: `head` before them, `tail` behind, `other` after an else."""

    def __init__(self, head, body, other=None, tail=None):
        self.head, self.body, self.other, self.tail = head, body, other, tail


def simple_body(body):
    return len(body) == 1 and isinstance(body[0], Line) and not body[0].text.startswith(DECLARING)


DECLARING = ("int ", "unsigned ", "char ", "struct ", "region ")


def written(statements, depth=1):
    """The lines of statements."""
    made, pad = [], "    " * depth
    for s in statements:
        if isinstance(s, Line):
            made.append(pad + s.text)
        elif s.tail is not None:
            made.append(f"{pad}{s.head} {{")
            made += written(s.body, depth + 1)
            made.append(f"{pad}}} {s.tail}")
        elif s.other:
            made += written_else(s, depth)
        elif not s.body and s.head:
            made.append(f"{pad}{s.head};" if not s.head.startswith("if") else f"{pad}{s.head} {{}}")
        elif s.head and simple_body(s.body) and len(pad + s.head + s.body[0].text) < WIDTH:
            made.append(f"{pad}{s.head} {s.body[0].text}")
        else:
            made.append(f"{pad}{s.head} {{" if s.head else pad + "{")
            made += written(s.body, depth + 1)
            made.append(pad + "}")
    return made


def written_else(s, depth):
    pad = "    " * depth
    made = [f"{pad}{s.head} {{"] + written(s.body, depth + 1)
    chain = s.other[0] if len(s.other) == 1 and isinstance(s.other[0], Nest) and s.other[0].head.startswith("if") \
        and s.other[0].tail is None else None
    if chain is not None:
        inner = written([Nest(chain.head, chain.body or [Line(";")], chain.other)], depth) if chain.other else \
            [f"{pad}{chain.head} {{"] + written(chain.body, depth + 1) + [pad + "}"]
        made.append(f"{pad}}} else {inner[0].lstrip()}")
        return made + inner[1:]
    made.append(f"{pad}}} else {{")
    made += written(s.other, depth + 1)
    made.append(pad + "}")
    return made
