"""Types of expressions. A part of the checker: makes typed expressions of pycparser's, with C's conversions."""

import re

from pycparser import c_ast

from . import constants, library
from . import types as T
from .refusal import Refusal, place_of
from .tree import (Address, Allocate, Assign, Binary, Call, Comma, Compare, Conditional, Convert, Deref, Index, Library,
                   Literal, Logical, Member, Move, Name, Null, Number, RegionCall, Routine, Shift, Step, Text, Unary,
                   Update, Variable)

RING = ("+", "-", "*", "&", "|", "^")
SMALL = T.INT.high
FORMAT = re.compile(rb"%([-+ 0#]*)(\*|\d+)?(?:\.(\*|\d+)?)?(hh|h|ll|l|z|j|t|L)?(.)", re.S)


def number_of(place, value, type_=T.INT):
    made = Number(place, value=value, text=None)
    made.type = type_
    return made


def is_lvalue(e):
    return isinstance(e, (Name, Deref, Index, Literal)) or isinstance(e, Member) and (e.arrow or is_lvalue(e.base))


def expose(e):
    """Notes that a pointer may lead to the object of an lvalue, or into it."""
    if isinstance(e, Name):
        e.variable.exposed = True
    elif isinstance(e, Literal):
        e.variable.exposed = True
    elif isinstance(e, Member):
        e.field.boxed = True
    elif isinstance(e, Index) and isinstance(e.base.type, T.Array):
        expose(e.base)


def is_zero(e):
    """Whether an expression is a null pointer constant."""
    return isinstance(e, Null) or T.is_number(e.type) and constants.folded(e) == 0 and not isinstance(e, Name)


def same_text(a, b):
    """Whether two expressions without side effects are the same."""
    if type(a) is not type(b):
        return False
    if isinstance(a, Name):
        return a.variable is b.variable
    if isinstance(a, Number):
        return a.value == b.value
    if isinstance(a, Member) and a.field is not b.field:
        return False
    if isinstance(a, Convert) and a.type is not b.type:
        return False
    if isinstance(a, (Index, Deref, Member, Move, Convert, Address)):
        return getattr(a, "op", None) == getattr(b, "op", None) and all(
            same_text(x, y) for x, y in zip(a.children(), b.children()))
    return False


def compatible(a, b):
    """Whether pointers of these types may stand for one another: both kinds of unsigned bytes are alike in RC."""
    if a == b:
        return True
    if isinstance(a, T.Pointer) and isinstance(b, T.Pointer):
        return compatible(a.to, b.to)
    if isinstance(a, T.Array) and isinstance(b, T.Array):
        return (a.count == b.count or None in (a.count, b.count)) and compatible(a.of, b.of)
    return {a, b} == {T.CHAR, T.UNSIGNED_CHAR} if T.is_number(a) and T.is_number(b) else False


class Expressions:
    def __init__(self, options):
        self.options = options
        self.names, self.tags = [], []
        self.routines, self.defined = [], set()
        self.routine = None
        self.in_header = False
        self.doubts, self.notes = {}, []

    # Names.

    def find(self, name):
        for scope in reversed(self.names):
            if name in scope:
                return scope[name]
        return None

    def typed(self, node, type_):
        node.type = type_
        return node

    # The sign of a plain char. A doubt is noted where one is converted, and taken back where it doesn't matter.

    def doubt(self, e, at):
        if e.type is T.CHAR and not self.options.unsigned_char and constants.folded(e) is None:
            self.doubts[id(at)] = at

    def forgive(self, e):
        """Takes back the doubts of a value of which only the last eight bits matter."""
        self.doubts.pop(id(e), None)
        if isinstance(e, Binary) and e.op in RING:
            self.forgive(e.left)
            self.forgive(e.right)
        elif isinstance(e, Convert) and e.type.size >= 1 and e.type is not T.BOOL:
            self.forgive(e.operand)
        elif isinstance(e, Unary) and e.op in "-~":
            self.forgive(e.operand)
        elif isinstance(e, Conditional):
            self.forgive(e.left)
            self.forgive(e.right)

    def no_doubts(self):
        if self.doubts:
            first = next(iter(self.doubts.values()))
            self.doubts.clear()
            raise Refusal(first.place, "the sign of a char may matter here: say --unsigned-char where it doesn't, "
                          "or write unsigned char")

    def promote(self, e):
        """A number as an operand of arithmetic."""
        type_ = T.promoted(e.type)
        if e.type is type_:
            return e
        made = self.typed(Convert(e.place, operand=e, explicit=False), type_)
        self.doubt(e, made)
        return made

    # Conversions.

    def decayed(self, e):
        """An array as a pointer to its first element; any other value as it is."""
        if not isinstance(e.type, T.Array):
            return e
        if isinstance(e, Member) and not e.arrow and not is_lvalue(e.base):
            raise Refusal(e.place, "an array in a struct that is no object")
        if not isinstance(e, Text):
            expose(e)
        return self.typed(Address(e.place, operand=e, decay=True), T.Pointer(e.type.of))

    def number(self, node, what="this"):
        made = self.decayed(self.expression(node))
        if not T.is_number(made.type):
            raise Refusal(made.place, f"{what} is no number but {made.type}")
        return made

    def truth(self, e):
        """A value as a condition."""
        e = self.decayed(e)
        if not T.is_scalar(e.type):
            raise Refusal(e.place, f"a condition that is {e.type}")
        if T.is_number(e.type) and e.type.wide() and not self.options.int_is_enough:
            e = self.narrowed(e, T.UNSIGNED, exact=True)
        return e

    def small(self, e):
        """Whether a value of 64 bits is known to be one of 0 to 2147483647."""
        value = constants.folded(e)
        return 0 <= value <= SMALL if value is not None else isinstance(e, Library) and e.name == "strlen"

    def narrowed(self, e, type_, exact=False):
        """A value of 64 bits as one of at most 32. `exact`: the value counts, not only its last bits."""
        if self.options.int_is_enough or not e.type.wide():
            return e if e.type is type_ else self.typed(Convert(e.place, operand=e, explicit=False), type_)
        value = constants.folded(e)
        if value is not None and (not exact or type_.low <= value <= type_.high):
            return number_of(e.place, type_.wrap(value), type_)
        if self.small(e):
            return self.typed(Convert(e.place, operand=e, explicit=False), type_)
        if not exact and isinstance(e, Binary) and e.op in RING:
            made = self.typed(Binary(e.place, op=e.op, left=self.narrowed(e.left, T.UNSIGNED),
                                     right=self.narrowed(e.right, T.UNSIGNED)), T.UNSIGNED)
            return made if type_ is T.UNSIGNED else self.typed(Convert(e.place, operand=made, explicit=False), type_)
        if not exact and isinstance(e, Convert) and not e.operand.type.wide():
            return self.typed(Convert(e.place, operand=e.operand, explicit=False), type_)
        raise Refusal(e.place, f"a value of the type {e.type}: RC has 32 bits; say --int-is-enough where they do")

    def converted(self, e, type_, place, explicit=False):
        """A value as one of another type: assigned, passed, returned or cast."""
        e = self.decayed(e)
        if T.is_number(type_):
            if isinstance(e.type, T.Pointer) and type_ is T.BOOL:
                return self.typed(Convert(place, operand=e, explicit=explicit), type_)
            if not T.is_number(e.type):
                raise Refusal(place, f"{e.type} in place of a number")
            return self.converted_number(e, type_, place, explicit)
        if isinstance(type_, T.Struct):
            if e.type is not type_:
                raise Refusal(place, f"{e.type} in place of {type_}")
            return e
        if is_zero(e):
            return self.typed(Null(place), type_)
        if isinstance(e, Allocate) and e.element is None and isinstance(type_, T.Pointer):
            return self.allocated(e, type_, place)
        if isinstance(e, Library) and e.name in ("memset", "memcpy") and e.type is not type_ and explicit:
            return e
        if not compatible(e.type, type_):
            raise Refusal(place, f"{e.type} in place of {type_}")
        return e if e.type == type_ else self.typed(Convert(place, operand=e, explicit=False), type_)

    def converted_number(self, e, type_, place, explicit=False):
        if e.type is type_:
            return e
        if type_.wide() and not self.options.int_is_enough:
            return self.typed(Convert(place, operand=e, explicit=explicit), type_)
        if e.type.wide() and not self.options.int_is_enough:
            return self.narrowed(e, type_, exact=type_ is T.BOOL)
        value = constants.folded(e)
        if isinstance(e, Number) and type_.low <= value <= type_.high:
            made = number_of(e.place, value, type_)
            made.text = e.text if type_ is T.INT or type_.held == "char" else None
            return made
        made = self.typed(Convert(place, operand=e, explicit=explicit), type_)
        if type_.size == 1 and type_ is not T.BOOL:
            self.forgive(e)
        elif type_ is not T.BOOL:
            self.doubt(e, made)
        return made

    # Expressions.

    def expression(self, node):
        work = getattr(self, "on_" + type(node).__name__, None)
        if work is None:
            raise Refusal(place_of(node) or (self.options.file, 1), f"this expression ({type(node).__name__})")
        return work(node)

    def on_Constant(self, node):
        place = place_of(node)
        if node.type == "string":
            data = constants.bytes_of(node.value[1:-1], place) if node.value.startswith('"') else None
            if data is None:
                raise Refusal(place, "a string of wide characters")
            return self.typed(Text(place, data=data), T.Array(T.CHAR, len(data) + 1))
        if node.type == "char":
            data = constants.bytes_of(node.value[1:-1], place)
            if len(data) != 1:
                raise Refusal(place, f"the character {node.value}")
            if data[0] > 127 and not self.options.unsigned_char:
                raise Refusal(place, f"the sign of {node.value} may matter: say --unsigned-char where it doesn't")
            made = number_of(place, data[0])
            made.text = character(data[0])
            return made
        if "float" in node.type or "double" in node.type:
            raise Refusal(place, f"the number {node.value} with a fraction")
        if not node.value[0].isdigit():
            raise Refusal(place, f"the constant {node.value}")
        return constants.number(node.value, place)

    def on_ID(self, node):
        place = place_of(node)
        found = self.find(node.name)
        if isinstance(found, Variable):
            if found.role == "param" and found.function.name == "main":
                raise Refusal(place, "the arguments of main: RC has none")
            found.used = True
            return self.typed(Name(place, variable=found), found.type)
        if isinstance(found, tuple) and found[0] == "enum":
            return number_of(place, found[1])
        if isinstance(found, tuple) and found == ("library", "EOF"):
            made = number_of(place, -1)
            made.text = "EOF"
            return made
        if isinstance(found, tuple) and found == ("library", "NULL"):
            return self.typed(Null(place), T.Pointer(T.VOID))
        if isinstance(found, tuple) and found[0] == "library":
            raise Refusal(place, f"{node.name} of the C library, other than where it is called")
        if isinstance(found, Routine):
            raise Refusal(place, f"a pointer to the function {node.name}")
        raise Refusal(place, f"{node.name} isn't declared")

    def on_ExprList(self, node):
        made = self.expression(node.exprs[0])
        for item in node.exprs[1:]:
            right = self.decayed(self.expression(item))
            made = self.typed(Comma(place_of(item), left=made, right=right), right.type)
        return made

    def on_BinaryOp(self, node):
        place = place_of(node)
        if node.op in ("&&", "||"):
            left, right = self.truth(self.expression(node.left)), self.truth(self.expression(node.right))
            made = self.typed(Logical(place, op=node.op, left=left, right=right), T.INT)
            if node.op == "&&":
                self.forgive_range(left, right)
            return made
        left, right = self.decayed(self.expression(node.left)), self.decayed(self.expression(node.right))
        if node.op in ("==", "!=", "<", ">", "<=", ">="):
            return self.compare(node.op, left, right, place)
        for side in (left, right):
            if not T.is_scalar(side.type):
                raise Refusal(place, f"{side.type} as an operand of {node.op}")
        return self.arithmetic(node.op, left, right, place)

    def arithmetic(self, op, left, right, place):
        numbers = T.is_number(left.type), T.is_number(right.type)
        if not all(numbers):
            return self.moved(op, left, right, place)
        left, right = self.promote(left), self.promote(right)
        if op in ("<<", ">>"):
            if right.type.wide():
                right = self.narrowed(right, T.INT)
            made = self.typed(Shift(place, op=op, left=left, right=right), left.type)
        else:
            made = self.typed(Binary(place, op=op, left=left, right=right), T.common(left.type, right.type))
        if made.type.wide() and constants.folded(made) is not None and not (op == "*" and self.has_size(made)):
            return number_of(place, constants.folded(made), made.type)
        return made

    def has_size(self, e):
        """Whether one of the factors of a product is a size that an allocation would want to see."""
        return any(getattr(factor, "sized", None) is not None for factor in self.factors(e))

    def moved(self, op, left, right, place):
        """A pointer and a number."""
        if op == "+" and T.is_number(left.type):
            left, right = right, left
        if op == "-" and isinstance(right.type, T.Pointer):
            raise Refusal(place, "the difference of two pointers: count with an index")
        if op not in "+-" or not isinstance(left.type, T.Pointer) or not T.is_number(right.type):
            raise Refusal(place, f"{left.type} {op} {right.type}")
        if isinstance(left.type.to, T.Void) or isinstance(left.type.to, T.Struct) and left.type.to.fields is None:
            raise Refusal(place, f"arithmetic on {left.type}")
        return self.typed(Move(place, op=op, base=left, offset=self.index_value(right)), left.type)

    def index_value(self, e):
        """A number as an index."""
        e = self.promote(e)
        return self.narrowed(e, T.INT) if e.type.wide() else e

    def compare(self, op, left, right, place):
        if T.is_number(left.type) and T.is_number(right.type):
            return self.compare_numbers(op, left, right, place)
        if is_zero(left) and not T.is_number(right.type):
            left = self.typed(Null(place), right.type)
        if is_zero(right) and not T.is_number(left.type):
            right = self.typed(Null(place), left.type)
        for side in (left, right):
            if T.is_number(side.type) or not T.is_scalar(side.type):
                raise Refusal(place, f"{left.type} {op} {right.type}")
        if op not in ("==", "!="):
            raise Refusal(place, f"pointers compared by {op}: RC compares them by == and !=; compare indexes")
        if not compatible(left.type, right.type) and not (isinstance(left, Null) or isinstance(right, Null)):
            raise Refusal(place, f"{left.type} {op} {right.type}")
        if isinstance(left, Null) and isinstance(right, Null):
            return number_of(place, int(op == "=="))
        return self.typed(Compare(place, op=op, left=left, right=right), T.INT)

    def compare_numbers(self, op, left, right, place):
        meeting = T.common(left.type, right.type)
        if meeting.wide() and not self.options.int_is_enough:
            left, right = self.wide_sides(left, right, place)
        made_left, made_right = self.promote(left), self.promote(right)
        made = self.typed(Compare(place, op=op, left=made_left, right=made_right), T.INT)
        if op in ("==", "!="):
            values = constants.folded(left), constants.folded(right)
            plain = left.type is T.CHAR, right.type is T.CHAR
            if all(plain) or plain[0] and values[1] in range(128) or plain[1] and values[0] in range(128):
                self.doubts.pop(id(made_left), None)
                self.doubts.pop(id(made_right), None)
        return made

    def wide_sides(self, left, right, place):
        """The sides of a comparison in 64 bits, as numbers of 32 bits which compare alike."""
        def plain(e):
            return not e.type.wide()

        for e in (left, right):
            if not plain(e) and not self.small(e):
                self.narrowed(e, T.common(T.INT, T.INT) if self.fits_int(e) else T.UNSIGNED, exact=True)
        signed = T.common(left.type, right.type).signed
        if signed:
            if any(plain(e) and T.promoted(e.type) is T.UNSIGNED for e in (left, right)):
                if not all(plain(e) or self.small(e) for e in (left, right)):
                    raise Refusal(place, "a comparison in 64 bits; say --int-is-enough where 32 bits do")
                return tuple(e if plain(e) else self.narrowed(e, T.UNSIGNED, exact=True) for e in (left, right))
            return tuple(e if plain(e) else self.narrowed(e, T.INT, exact=True) for e in (left, right))
        if not all(plain(e) or self.small(e) for e in (left, right)):
            raise Refusal(place, "a comparison in 64 bits; say --int-is-enough where 32 bits do")
        return tuple(e if plain(e) else self.narrowed(e, T.UNSIGNED, exact=True) for e in (left, right))

    def fits_int(self, e):
        value = constants.folded(e)
        return value is not None and T.INT.low <= value <= T.INT.high

    def forgive_range(self, left, right):
        """`c >= 'a' && c <= 'z'` means the same with either sign, where both ends are at most 127."""
        ends = {}
        for side in (left, right):
            if not isinstance(side, Compare) or not isinstance(side.left, Convert):
                return
            value = constants.folded(side.right)
            if side.left.operand.type is not T.CHAR or value not in range(128) or value == 0 and side.op == ">=":
                return
            ends[side.op[0]] = side
        if set(ends) == {"<", ">"} and same_text(left.left.operand, right.left.operand):
            self.doubts.pop(id(left.left), None)
            self.doubts.pop(id(right.left), None)

    def switched(self, test, labels):
        """The number that a switch looks at."""
        made = self.promote(test)
        if made.type.wide():
            made = self.narrowed(made, T.INT if made.type.signed else T.UNSIGNED, exact=True)
        if test.type is T.CHAR and all(value in range(128) for value in labels):
            self.doubts.pop(id(made), None)
        return made

    def on_UnaryOp(self, node):
        place = place_of(node)
        if node.op == "sizeof":
            return self.size(node.expr, place)
        if node.op == "_Alignof":
            raise Refusal(place, "_Alignof")
        if node.op in ("++", "--", "p++", "p--"):
            return self.stepped(node, place)
        operand = self.expression(node.expr)
        if node.op == "&":
            return self.address(operand, place)
        operand = self.decayed(operand)
        if node.op == "*":
            return self.deref(operand, place)
        if node.op == "!":
            return self.typed(Unary(place, op="!", operand=self.truth(operand)), T.INT)
        if not T.is_number(operand.type):
            raise Refusal(place, f"{node.op} of {operand.type}")
        operand = self.promote(operand)
        if node.op == "+":
            return operand
        made = self.typed(Unary(place, op=node.op, operand=operand), operand.type)
        if made.type.wide():
            value = constants.folded(made)
            if value is not None:
                return number_of(place, value, made.type)
            if not self.options.int_is_enough:
                zero = number_of(place, 0 if node.op == "-" else made.type.wrap(-1), made.type)
                return self.typed(Binary(place, op="-" if node.op == "-" else "^", left=zero, right=operand), made.type)
        return made

    def size(self, node, place):
        if isinstance(node, c_ast.Typename):
            type_ = self.type_of(node)
        else:
            marks = self.marks()
            type_ = self.expression(node).type
            self.restore(marks)
        if isinstance(type_, (T.Void, T.Function)) or isinstance(type_, T.Struct) and type_.fields is None \
                or isinstance(type_, T.Array) and type_.count is None:
            raise Refusal(place, f"the size of {type_}")
        made = number_of(place, T.size_of(type_), T.UNSIGNED_LONG)
        made.sized = type_
        return made

    def marks(self):
        """What looking at an expression changes, to be restored where it isn't evaluated."""
        return dict(self.doubts), self.routine and (set(self.routine.calls), self.routine.makes_objects,
                                                    self.routine.exits)

    def restore(self, marks):
        self.doubts = marks[0]
        if self.routine:
            self.routine.calls, self.routine.makes_objects, self.routine.exits = marks[1]

    def address(self, operand, place):
        if isinstance(operand, Deref):
            return operand.operand
        if isinstance(operand, Index) and not isinstance(operand.base.type, T.Array):
            return self.typed(Move(place, op="+", base=operand.base, offset=operand.index), operand.base.type)
        if not is_lvalue(operand):
            raise Refusal(place, "the address of what is no object")
        expose(operand)
        return self.typed(Address(place, operand=operand, decay=False), T.Pointer(operand.type))

    def deref(self, operand, place):
        if not isinstance(operand.type, T.Pointer):
            raise Refusal(place, f"* of {operand.type}")
        to = operand.type.to
        if isinstance(to, T.Void) or isinstance(to, T.Struct) and to.fields is None:
            raise Refusal(place, f"* of {operand.type}")
        if isinstance(operand, Address) and not operand.decay:
            return operand.operand
        if isinstance(operand, Address):
            index = number_of(place, 0)
            return self.typed(Index(place, base=operand.operand, index=index), to)
        if isinstance(operand, Move) and operand.op == "+" and isinstance(operand.base, Address) and operand.base.decay:
            return self.typed(Index(place, base=operand.base.operand, index=operand.offset), to)
        return self.typed(Deref(place, operand=operand), to)

    def on_ArrayRef(self, node):
        place = place_of(node)
        base, index = self.expression(node.name), self.expression(node.subscript)
        if T.is_number(base.type):
            base, index = index, base
        index = self.decayed(index)
        if not T.is_number(index.type) or not isinstance(base.type, (T.Array, T.Pointer)):
            raise Refusal(place, f"{base.type} with an index that is {index.type}")
        of = base.type.of if isinstance(base.type, T.Array) else base.type.to
        if isinstance(of, (T.Void, T.Function)) or isinstance(of, T.Struct) and of.fields is None:
            raise Refusal(place, f"an element of {base.type}")
        if isinstance(base, Member) and not base.arrow and not is_lvalue(base.base):
            raise Refusal(place, "an array in a struct that is no object")
        return self.typed(Index(place, base=base, index=self.index_value(index)), of)

    def on_StructRef(self, node):
        place = place_of(node)
        base = self.expression(node.name)
        arrow = node.type == "->"
        if arrow:
            base = self.decayed(base)
            if isinstance(base, Address) and not base.decay:
                base, arrow = base.operand, False
        struct = base.type.to if arrow and isinstance(base.type, T.Pointer) else None if arrow else base.type
        if not isinstance(struct, T.Struct):
            raise Refusal(place, f"{node.type}{node.field.name} of {base.type}")
        if struct.fields is None:
            raise Refusal(place, f"{struct} is nowhere defined")
        field = struct.field(node.field.name)
        if field is None:
            raise Refusal(place, f"{struct} has no field {node.field.name}")
        if arrow and isinstance(base, Address) and base.decay:
            base, arrow = self.typed(Index(place, base=base.operand, index=number_of(place, 0)), struct), False
        return self.typed(Member(place, base=base, arrow=arrow, struct=struct, field=field), field.type)

    def on_Assignment(self, node):
        place = place_of(node)
        target = self.target(self.expression(node.lvalue), place)
        value = self.expression(node.rvalue)
        if node.op == "=":
            value = self.converted(value, target.type, place)
            return self.typed(Assign(place, target=target, value=value), target.type)
        return self.updated(node.op[:-1], target, self.decayed(value), place)

    def target(self, e, place):
        """What may be assigned to."""
        if not is_lvalue(e) or isinstance(e.type, T.Array):
            raise Refusal(place, "an assignment to what is no object")
        inner = e
        while isinstance(inner, Member) and not inner.arrow:
            inner = inner.base
        if isinstance(inner, Name):
            inner.variable.assigned = True
        return e

    def updated(self, op, target, value, place):
        if not T.is_scalar(target.type) or not T.is_number(value.type):
            raise Refusal(place, f"{target.type} {op}= {value.type}")
        if isinstance(target.type, T.Pointer):
            if op not in "+-":
                raise Refusal(place, f"{target.type} {op}= {value.type}")
            made = Update(place, op=op, target=target, value=self.index_value(value), inner=target.type)
            return self.typed(made, target.type)
        value = self.promote(value)
        inner = T.promoted(target.type) if op in ("<<", ">>") else T.common(target.type, value.type)
        if value.type.wide() and not self.options.int_is_enough:
            exact = op not in RING
            value = self.narrowed(value, T.UNSIGNED if not exact else T.INT, exact)
            if exact and T.promoted(target.type) is not T.INT:
                raise Refusal(place, f"{op}= in 64 bits; say --int-is-enough where 32 bits do")
            inner = T.common(target.type, value.type)
        made = self.typed(Update(place, op=op, target=target, value=value, inner=inner), target.type)
        if target.type.size == 1 and op in RING:
            self.forgive(value)
        elif target.type is T.CHAR and not self.options.unsigned_char:
            self.doubts[id(made)] = made
        return made

    def stepped(self, node, place):
        target = self.target(self.expression(node.expr), place)
        if not T.is_scalar(target.type) or target.type is T.REGION:
            raise Refusal(place, f"{node.op[-2:]} of {target.type}")
        prefix = not node.op.startswith("p")
        return self.typed(Step(place, op=node.op[-2:], target=target, prefix=prefix), target.type)

    def on_TernaryOp(self, node):
        place = place_of(node)
        test = self.truth(self.expression(node.cond))
        left, right = self.decayed(self.expression(node.iftrue)), self.decayed(self.expression(node.iffalse))
        if T.is_number(left.type) and T.is_number(right.type):
            left, right = self.promote(left), self.promote(right)
            type_ = T.common(left.type, right.type)
        elif isinstance(left.type, T.Void) and isinstance(right.type, T.Void):
            type_ = T.VOID
        elif is_zero(right) and not T.is_number(left.type):
            type_, right = left.type, self.typed(Null(place), left.type)
        elif is_zero(left) and not T.is_number(right.type):
            type_, left = right.type, self.typed(Null(place), right.type)
        elif compatible(left.type, right.type):
            type_ = left.type
        else:
            raise Refusal(place, f"{left.type} and {right.type} as the ends of ?:")
        return self.typed(Conditional(place, test=test, left=left, right=right), type_)

    def on_Cast(self, node):
        place = place_of(node)
        type_ = self.type_of(node.to_type)
        operand = self.decayed(self.expression(node.expr))
        if isinstance(type_, T.Void):
            return self.typed(Convert(place, operand=operand, explicit=True), T.VOID)
        if T.is_number(type_) and isinstance(operand.type, (T.Pointer, T.Region)) and type_ is not T.BOOL:
            raise Refusal(place, f"a cast of {operand.type} to {type_}")
        if isinstance(type_, T.Pointer) and isinstance(type_.to, T.Void):
            if is_zero(operand):
                return self.typed(Null(place), type_)
            raise Refusal(place, "a cast to void *: RC has only pointers to a type")
        if isinstance(type_, T.Pointer) and not is_zero(operand) and not isinstance(operand, Allocate) \
                and not compatible(operand.type, type_):
            raise Refusal(place, f"a cast of {operand.type} to {type_}")
        made = self.converted(operand, type_, place, explicit=True)
        if made is operand and isinstance(made.type, T.Int) and made.type is type_ and is_lvalue(made):
            return self.typed(Convert(place, operand=made, explicit=True), type_)
        return made

    def on_CompoundLiteral(self, node):
        place = place_of(node)
        type_ = self.type_of(node.type)
        if self.routine is None:
            raise Refusal(place, "a compound literal outside of functions")
        variable = Variable("literal", type_, "local", place, self.routine)
        variable.type, variable.initial = self.initial(type_, node.init, place)
        self.usable(variable.type, place, "a compound literal")
        if T.is_scalar(variable.type):
            raise Refusal(place, "a compound literal that is no array or struct")
        self.routine.locals.append(variable)
        return self.typed(Literal(place, variable=variable), variable.type)

    # Calls.

    def on_FuncCall(self, node):
        place = place_of(node)
        if not isinstance(node.name, c_ast.ID):
            raise Refusal(place, "a call through a pointer to a function")
        name, args = node.name.name, list(node.args.exprs) if node.args else []
        found = self.find(name)
        if isinstance(found, tuple) and found[0] == "library":
            return self.library_call(name, args, place)
        if isinstance(found, Variable):
            raise Refusal(place, f"a call through the pointer {name}")
        if not isinstance(found, Routine):
            if name in library.REASONS:
                raise Refusal(place, f"{name} of the C library: {library.REASONS[name]}")
            raise Refusal(place, f"{name} isn't declared")
        if self.routine is None:
            raise Refusal(place, f"a call of {name} outside of functions")
        if name == "main":
            raise Refusal(place, "a call of main")
        if len(args) != len(found.type.params):
            raise Refusal(place, f"{name} takes {len(found.type.params)} arguments and gets {len(args)}")
        made = [self.converted(self.expression(arg), type_, place_of(arg) or place)
                for arg, type_ in zip(args, found.type.params)]
        self.routine.calls.add(found)
        if isinstance(found.type.result, T.Struct):
            self.routine.makes_objects = True
        return self.typed(Call(place, routine=found, args=made), found.type.result)

    def library_call(self, name, args, place):
        if self.routine is None:
            raise Refusal(place, f"a call of {name} outside of functions")
        if name in ("printf", "fprintf"):
            return self.print_call(name, args, place)
        if name in ("malloc", "calloc"):
            return self.allocation(name, args, place)
        if name == "free":
            return self.free_call(args, place)
        if name in ("memset", "memcpy"):
            return self.memory_call(name, args, place)
        if name in library.REGIONS:
            return self.region_call(name, args, place)
        if name not in library.SIGNATURES:
            reason = library.REASONS.get(name)
            raise Refusal(place, f"{name} of the C library" + (f": {reason}" if reason else ""))
        letters = library.SIGNATURES[name]
        self.argument_count(name, args, len(letters) - 1, place)
        types = library.parameter_types(letters)
        made = []
        for arg, type_, letter in zip(args, types, letters[1:]):
            if letter == "f":
                self.stream(arg, "stdin" if "get" in name else "stdout")
            elif letter == "z":
                made.append(self.count(self.number(arg, f"an argument of {name}")))
            elif letter == "e":
                made.append(self.truth(self.expression(arg)))
            else:
                value = self.converted(self.expression(arg), type_, place_of(arg) or place)
                if letter == "b":
                    self.forgive(value)
                made.append(value)
        if name == "exit":
            self.routine.exits = True
        call = Library(place, name=name, args=made)
        return self.typed(call, library.result_type(letters))

    def argument_count(self, name, args, count, place):
        if len(args) != count:
            raise Refusal(place, f"{name} takes {count} arguments and gets {len(args)}")

    def count(self, e):
        """A number of elements, as an int."""
        e = self.promote(e)
        return self.narrowed(e, T.INT) if e.type.wide() else self.converted_number(e, T.INT, e.place)

    def stream(self, node, wanted):
        place = place_of(node)
        name = node.name if isinstance(node, c_ast.ID) else None
        if name == "stderr":
            raise Refusal(place, "stderr: RC writes to standard output alone")
        if name != wanted or self.find(name) != ("library", wanted):
            raise Refusal(place, f"a stream other than {wanted}")

    def print_call(self, name, args, place):
        if name == "fprintf":
            if not args:
                raise Refusal(place, "fprintf without a stream")
            self.stream(args.pop(0), "stdout")
        if not args or not isinstance(args[0], c_ast.Constant) or args[0].type != "string":
            raise Refusal(place, f"{name} with a format that is no literal")
        form = self.expression(args[0]).data
        pieces, values = self.format_pieces(form, [self.decayed(self.expression(a)) for a in args[1:]], place)
        return self.typed(Library(place, name="printf", args=values, pieces=pieces), T.INT)

    def format_pieces(self, form, values, place):
        """The pieces of a format: ("text", bytes), or (letter, flags, width, precision, argument) with numbers of
        arguments for a star; and the arguments, converted."""
        pieces, made, at, taken = [], [], 0, 0

        def take(type_, what, byte=False):
            nonlocal taken
            if taken >= len(values):
                raise Refusal(place, f"printf has fewer arguments than its format {what} asks for")
            value = values[taken]
            taken += 1
            if isinstance(type_, T.Int):
                if not T.is_number(value.type):
                    raise Refusal(value.place, f"{value.type} for {what}")
                if T.promoted(value.type).wide():
                    value = self.narrowed(value, type_, exact=True)
                else:
                    value = self.converted_number(self.promote(value), type_, value.place)
                if byte:
                    self.forgive(value)
            elif not compatible(value.type, type_):
                raise Refusal(value.place, f"{value.type} for {what}")
            made.append(value)
            return len(made) - 1

        while at < len(form):
            percent = form.find(b"%", at)
            text = form[at:percent if percent >= 0 else len(form)]
            if text:
                pieces.append(("text", text))
            if percent < 0:
                break
            match = FORMAT.match(form, percent)
            if match is None:
                raise Refusal(place, "printf with a format that ends in %")
            what = match.group(0).decode(errors="replace")
            flags, width, precision, size, letter = match.groups()
            letter = letter.decode("latin-1")
            at = match.end()
            if letter == "%":
                pieces.append(("text", b"%"))
                continue
            if letter not in "diuxXocs" or b"#" in flags or size in (b"h", b"hh", b"L", b"j", b"t") or (
                    size and letter in "cs") or b" " in flags and b"+" not in flags and letter not in "di":
                raise Refusal(place, f"printf with {what}")
            width = take(T.INT, what) if width == b"*" else None if width is None else ("is", int(width))
            dotted = b"." in match.group(0)[:-1]
            precision = take(T.INT, what) if precision == b"*" else None if not dotted else ("is", int(precision or 0))
            type_ = T.INT if letter in "dic" else library.STRING if letter == "s" else T.UNSIGNED
            if size and not self.options.int_is_enough and taken < len(values) and not (
                    T.is_number(values[taken].type) and T.promoted(values[taken].type).wide()):
                raise Refusal(place, f"printf with {what} for {values[taken].type}")
            pieces.append((letter, flags.decode(), width, precision, take(type_, what, letter == "c")))
        if taken < len(values):
            raise Refusal(place, "printf has more arguments than its format asks for")
        return pieces, made

    # Memory.

    def allocation(self, name, args, place):
        self.argument_count(name, args, 1 if name == "malloc" else 2, place)
        exprs = [self.number(arg, f"an argument of {name}") for arg in args]
        count, element = self.counted(exprs, place)
        made = self.typed(Allocate(place, count=count, element=None, sized=element, region=None), T.Pointer(T.VOID))
        return made

    def counted(self, exprs, place):
        """The number of elements and the type of an allocation's sizes: the type is None where only bytes are said."""
        factors = []
        for e in exprs:
            factors += self.factors(e)
        sizes = [e for e in factors if getattr(e, "sized", None) is not None]
        if len(sizes) > 1:
            raise Refusal(place, "an allocation with two sizes")
        rest = [e for e in factors if e not in sizes]
        count = None
        for e in rest:
            if constants.folded(e) == 1 and len(rest) > 1:
                continue
            e = self.count(e)
            count = e if count is None else self.typed(Binary(place, op="*", left=count, right=e), T.INT)
        return count, sizes[0].sized if sizes else None

    def factors(self, e):
        """The factors of a product. A size that was said stays apart."""
        if isinstance(e, Binary) and e.op == "*":
            return self.factors(e.left) + self.factors(e.right)
        if isinstance(e, Convert) and e.type.wide() and not getattr(e, "sized", None):
            return self.factors(e.operand)
        return [e]

    def allocated(self, e, type_, place):
        """An allocation as a pointer of the type."""
        to = type_.to
        if isinstance(to, T.Struct) and to.fields is None:
            raise Refusal(place, f"an allocation of {to}, which isn't defined yet")
        sized = e.sized
        if sized is None:
            if not (T.is_number(to) and to.size == 1):
                raise Refusal(e.place, f"an allocation of {to} that doesn't say sizeof({to})")
        elif isinstance(sized, T.Array) and not isinstance(to, T.Array) and compatible(sized.of, to):
            whole = number_of(place, sized.count)
            e.count = whole if e.count is None else self.typed(
                Binary(place, op="*", left=e.count, right=whole), T.INT)
        elif not compatible(sized, to):
            raise Refusal(e.place, f"an allocation of {sized} for a pointer to {to}")
        if e.count is not None and constants.folded(e.count) == 1 and not isinstance(to, T.Array):
            e.count = None
        made = Allocate(e.place, count=e.count, element=to, sized=sized, region=e.region)
        return self.typed(made, type_)

    def free_call(self, args, place):
        self.argument_count("free", args, 1, place)
        value = self.decayed(self.expression(args[0]))
        if not isinstance(value.type, T.Pointer):
            raise Refusal(place, f"free of {value.type}")
        self.notes.append((place, "free is left out: the region frees what lies in it"))
        return self.typed(Library(place, name="free", args=[value]), T.VOID)

    def memory_call(self, name, args, place):
        self.argument_count(name, args, 3, place)
        to = self.decayed(self.expression(args[0]))
        if not isinstance(to.type, T.Pointer):
            raise Refusal(place, f"{name} of {to.type}")
        count, sized = self.counted([self.number(args[2], f"an argument of {name}")], place)
        element = to.type.to
        if name == "memset":
            value = self.converted(self.expression(args[1]), T.INT, place)
            self.forgive(value)
            zero = constants.folded(value) == 0
            if not zero and not (T.is_number(element) and element.held == "char"):
                raise Refusal(place, f"memset of {element} to what isn't 0")
        else:
            value = self.decayed(self.expression(args[1]))
            if not compatible(value.type, to.type):
                raise Refusal(place, f"memcpy of {value.type} to {to.type}")
        if sized is None and not (T.is_number(element) and element.size == 1):
            raise Refusal(place, f"{name} of {element} without sizeof({element})")
        if sized is not None and isinstance(sized, T.Array) and isinstance(element, T.Array) and sized == element:
            pass
        elif sized is not None and isinstance(sized, T.Array):
            inner, length = T.flat(sized)
            if not compatible(inner, T.flat(element)[0] if isinstance(element, T.Array) else element):
                raise Refusal(place, f"{name} of {element} with the size of {sized}")
            length //= T.flat(element)[1] if isinstance(element, T.Array) else 1
            whole = number_of(place, length)
            count = whole if count is None else self.typed(Binary(place, op="*", left=count, right=whole), T.INT)
        elif sized is not None and not compatible(sized, element):
            raise Refusal(place, f"{name} of {element} with the size of {sized}")
        if count is None:
            count = number_of(place, 1)
        call = Library(place, name=name, args=[to, value, count])
        return self.typed(call, to.type)

    def region_call(self, name, args, place):
        if name in ("from_c_ralloc", "from_c_rarrayalloc"):
            region = self.converted(self.expression(args[0]), T.REGION, place)
            count, element = self.counted([self.number(a) for a in args[1:]], place)
            made = Allocate(place, count=count, element=None, sized=element, region=region)
            made.parts = ("region", "count")
            return self.typed(made, T.Pointer(T.VOID))
        self.argument_count(name, args, 0 if name == "newregion" else 1, place)
        values = [self.decayed(self.expression(arg)) for arg in args]
        if name in ("newsubregion", "deleteregion"):
            values = [self.converted(value, T.REGION, place) for value in values]
        elif name == "regionof" and not isinstance(values[0].type, T.Pointer):
            raise Refusal(place, f"regionof of {values[0].type}")
        if name == "deleteregion":
            self.routine.deletes = True
        made = RegionCall(place, name=name, args=values)
        return self.typed(made, T.VOID if name == "deleteregion" else T.REGION)


def character(value):
    """A byte as a character constant of RC."""
    known = {10: "\\n", 9: "\\t", 13: "\\r", 0: "\\0", 92: "\\\\", 39: "\\'", 7: "\\a", 8: "\\b", 11: "\\v", 12: "\\f"}
    if value in known:
        return f"'{known[value]}'"
    return f"'{chr(value)}'" if 32 <= value < 127 else f"'\\x{value:02x}'"
