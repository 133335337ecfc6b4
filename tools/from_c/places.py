"""Objects of RC: where they lie, and how their parts are reached."""

from . import types as T
from .output import LEVELS, POSTFIX, UNARY, Term, binary, number, unary


def plus(a, b):
    """The sum of two indexes, of which None is 0."""
    if a is None or a.constant == 0:
        return b
    if b is None or b.constant == 0:
        return a
    if a.constant is not None and b.constant is not None:
        return number(a.constant + b.constant)
    return binary("+", a, b, "unsigned" if "unsigned" in (a.held, b.held) else "int")


def times(a, count):
    """An index that counts groups of elements."""
    if count == 1:
        return a
    if a.constant is not None:
        return number(a.constant * count)
    return binary("*", a, number(count), a.held)


class Place:
    """An object, or a part of one, of the C type `type`.

    A number, pointer or struct: `term` stands for it; `pointer` is a pointer to it, None where there can be none.
    An array: `base` can be indexed, and the array begins `offset` elements of the flat array behind it;
    `reached` says whether a pointer may lead there."""

    def __init__(self, type_, term=None, pointer=None, base=None, offset=None, reached=True):
        self.type, self.term, self.pointer = type_, term, pointer
        self.base, self.offset, self.reached = base, offset, reached

    def calls(self):
        return any(part is not None and part.calls for part in (self.term, self.base, self.offset))

    def start(self):
        """An array as a pointer to its first element."""
        if self.offset is None or self.offset.constant == 0:
            return self.base
        return Term(f"{self.base.at(LEVELS['+'])} + {self.offset.at(LEVELS['*'])}", LEVELS["+"], None, None,
                    self.base.calls or self.offset.calls)


def held_of(type_):
    return type_.held if isinstance(type_, T.Int) else None


def pointed(type_, pointer):
    """What a pointer leads to."""
    if isinstance(type_, T.Array):
        return Place(type_, base=pointer)
    if pointer.level == UNARY and pointer.text.startswith("&"):
        return Place(type_, Term(pointer.text[1:], POSTFIX, held_of(type_), None, pointer.calls), pointer)
    return Place(type_, unary("*", pointer, held_of(type_)), pointer)


def named(type_, name):
    """A global of RC."""
    if isinstance(type_, T.Array):
        return Place(type_, base=Term(name))
    return Place(type_, Term(name, POSTFIX, held_of(type_)), Term("&" + name, UNARY))


def field_place(place, field):
    """A field of a struct."""
    if place.pointer is not None and place.term.text.startswith("*"):
        text = f"{place.pointer.at(POSTFIX)}->{field.rc_name}"
    else:
        text = f"{place.term.at(POSTFIX)}.{field.rc_name}"
    term = Term(text, POSTFIX, None, None, place.term.calls)
    if field.boxed:
        return pointed(field.type, term)
    if isinstance(field.type, T.Array):
        return Place(field.type, base=term, reached=False)
    term.held = held_of(field.type)
    return Place(field.type, term)


def element_place(array, index):
    """An element of an array. The index counts elements of its own type."""
    of = array.type.of
    if isinstance(of, T.Array):
        return Place(of, base=array.base, offset=plus(array.offset, times(index, T.flat(of)[1])),
                     reached=array.reached)
    at = plus(array.offset, index) or number(0)
    term = Term(f"{array.base.at(POSTFIX)}[{at.text}]", POSTFIX, held_of(of), None, array.base.calls or at.calls)
    return Place(of, term, Term("&" + term.text, UNARY, None, None, term.calls) if array.reached else None)
