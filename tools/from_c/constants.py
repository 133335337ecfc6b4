"""Numbers, characters and strings of C, and the folding of constant expressions."""

from . import types as T
from .preprocess import ESCAPE, escape_value
from .refusal import Refusal
from .tree import Binary, Compare, Conditional, Convert, Logical, Number, Shift, Unary


def bytes_of(body, place):
    """The bytes of a string's or a character's text between its quotes."""
    made, at = bytearray(), 0
    while at < len(body):
        if body[at] != "\\":
            made += body[at].encode()
            at += 1
            continue
        match = ESCAPE.match(body, at)
        value = escape_value(match) if match else None
        if value is None or value > 255:
            raise Refusal(place, f"the escape {body[at:at + 2]}")
        made.append(value)
        at = match.end()
    return bytes(made)


def number(text, place):
    """The Number of an integer constant, with the type that C gives it."""
    digits = text.rstrip("uUlL")
    suffix = text[len(digits):].lower()
    try:
        if digits.lower().startswith(("0x", "0b")):
            value = int(digits, 0)
        else:
            value = int(digits, 8 if digits.startswith("0") else 10)
    except ValueError:
        raise Refusal(place, f"the number {text}") from None
    types = [T.UNSIGNED, T.UNSIGNED_LONG] if "u" in suffix else [T.INT, T.LONG]
    if "u" not in suffix and not digits[0] in "123456789":
        types = [T.INT, T.UNSIGNED, T.LONG, T.UNSIGNED_LONG]
    if "l" in suffix:
        types = [t for t in types if t.wide()]
    for t in types:
        if value <= t.high:
            made = Number(place, value=value, text=None)
            made.type = t
            if digits[:2].lower() == "0x" and not t.wide():
                made.text = digits + ("u" if t is T.UNSIGNED else "")
            return made
    raise Refusal(place, f"the number {text}")


def quotient(a, b):
    """Division as C has it, toward zero."""
    return abs(a) // abs(b) * (1 if (a < 0) == (b < 0) else -1)


def calculate(op, a, b):
    """The exact result of an operator, or None."""
    if op in "/%" and b == 0:
        return None
    if op == "/":
        return quotient(a, b)
    if op == "%":
        return a - b * quotient(a, b)
    if op in ("<<", ">>"):
        return None if not 0 <= b < 64 else a << b if op == "<<" else a >> b
    return {"+": a + b, "-": a - b, "*": a * b, "&": a & b, "|": a | b, "^": a ^ b}[op]


def compared(op, a, b):
    return int({"==": a == b, "!=": a != b, "<": a < b, ">": a > b, "<=": a <= b, ">=": a >= b}[op])


def folded(e):
    """The value of a constant expression of a number type, or None."""
    if isinstance(e, Number):
        return e.value
    if not T.is_number(e.type) or not isinstance(
            e, (Unary, Binary, Shift, Compare, Logical, Conditional, Convert)):
        return None
    parts = [folded(part) for part in e.children()]
    if isinstance(e, Conditional):
        return None if parts[0] is None else e.type.wrap(parts[1] if parts[0] else parts[2]) \
            if parts[1 if parts[0] else 2] is not None else None
    if None in parts:
        return None
    if isinstance(e, Convert):
        return e.type.wrap(parts[0])
    if isinstance(e, Unary):
        return e.type.wrap({"-": -parts[0], "~": ~parts[0], "!": int(not parts[0])}[e.op])
    if isinstance(e, Logical):
        return int(bool(parts[0]) and bool(parts[1])) if e.op == "&&" else int(bool(parts[0]) or bool(parts[1]))
    if isinstance(e, Compare):
        meeting = T.common(e.left.type, e.right.type) if T.is_number(e.left.type) else None
        return compared(e.op, *(meeting.wrap(p) for p in parts)) if meeting else None
    value = calculate(e.op, *parts)
    return None if value is None else e.type.wrap(value)
