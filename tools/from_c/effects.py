"""What expressions read and write, and where C leaves their order open.

A place of memory is one of

    ("value", variable)                     a variable that no pointer leads to
    ("cell", type, variable, exposed)       a number or pointer in memory, in a known variable or (None) anywhere
    ("field", struct, name, variable, exposed)
    ("input",), ("output",)                 what getchar takes and putchar writes

An effect has reads, writes that are done when the value is there, and open writes, which C orders only against
the end of the whole expression (or the next && || ?: or comma)."""

from . import library
from . import types as T
from .refusal import Refusal
from .tree import (Address, Allocate, Assign, Binary, Call, Comma, Compare, Conditional, Convert, Declare, Deref, Evaluate,
                   Index, Initial, Library, Literal, Logical, Member, Move, Name, Null, RegionCall, Shift, Step, Update,
                   Variable, For, If, Return, Switch, While, Do, initial_parts, walk)

INPUT, OUTPUT = ("input",), ("output",)
NOTHING = frozenset()
# Regions are made and deleted in an order, so that these stand for a place of their own.
REGIONS = ("regions",)
SETTING = (Assign, Update, Step)


class Effect:
    __slots__ = ("reads", "done", "open")

    def __init__(self, reads=NOTHING, done=NOTHING, open_=NOTHING):
        self.reads, self.done, self.open = frozenset(reads), frozenset(done), frozenset(open_)

    def __or__(self, other):
        return Effect(self.reads | other.reads, self.done | other.done, self.open | other.open)

    @property
    def writes(self):
        return self.done | self.open

    def settled(self):
        """The effect after a point at which all writes are done."""
        return Effect(self.reads, self.writes)


def alias(a, b):
    """Whether two places may be the same."""
    if a[0] != b[0]:
        return False
    if a[0] == "value":
        return a[1] is b[1]
    if a[0] in ("input", "output", "regions"):
        return True
    if a[1] != b[1] or a[0] == "field" and a[2] != b[2]:
        return False
    (one, one_exposed), (other, other_exposed) = a[-2:], b[-2:]
    if one is not None and other is not None:
        return one is other
    return (one is None or one_exposed) and (other is None or other_exposed)


def meet(some, others):
    """The first place of `some` that may be one of `others`, or None."""
    for a in some:
        for b in others:
            if alias(a, b):
                return a
    return None


def shown(location):
    """A place of memory in words."""
    if location[0] == "value":
        return location[1].name
    if location[0] == "field":
        return f"the field {location[2]}"
    if location[0] == "cell":
        return location[2].name if location[2] is not None else f"what a pointer to {location[1]} leads to"
    return {"input": "the input", "output": "the output", "regions": "regions"}[location[0]]


def root(e):
    """The variable in which an lvalue lies, or None where a pointer leads to it."""
    while True:
        if isinstance(e, (Name, Literal)):
            return e.variable
        if isinstance(e, Member):
            if e.arrow:
                return fresh_variable(e.base)
            if e.field.boxed:
                return None
            e = e.base
        elif isinstance(e, Index):
            if not isinstance(e.base.type, T.Array):
                return fresh_variable(e.base)
            e = e.base
        elif isinstance(e, Deref):
            return fresh_variable(e.operand)
        else:
            return None


def fresh_variable(pointer):
    """The variable that a pointer is read from, if that leads only to objects that its function has made."""
    return pointer.variable if isinstance(pointer, Name) and pointer.variable.fresh else None


def locations(e):
    """The places that an lvalue of a scalar or struct type stands for."""
    variable = root(e)
    exposed = variable is None or variable.exposed or variable.fresh
    if isinstance(e.type, T.Struct):
        return frozenset(struct_locations(e.type, variable, exposed))
    inner = e
    while isinstance(inner, Index) and isinstance(inner.base.type, T.Array):
        inner = inner.base
    if isinstance(inner, Member) and not inner.field.boxed:
        return frozenset([("field", inner.struct, inner.field.name, variable, exposed)])
    if isinstance(e, Name) and not variable.exposed:
        return frozenset([("value", variable)])
    return frozenset([("cell", T.rc_type(e.type), variable, exposed)])


def struct_locations(struct, variable, exposed):
    for field in struct.fields:
        inner = T.flat(field.type)[0]
        if isinstance(inner, T.Struct):
            yield from struct_locations(inner, None if field.boxed else variable, exposed or field.boxed)
        elif field.boxed:
            yield ("cell", T.rc_type(inner), None, True)
        else:
            yield ("field", struct, field.name, variable, exposed)


def element_locations(type_):
    """The places that objects of a type, anywhere, consist of."""
    inner = T.flat(type_)[0] if isinstance(type_, T.Array) else type_
    if isinstance(inner, T.Struct):
        return frozenset(struct_locations(inner, None, True))
    return frozenset([("cell", T.rc_type(inner), None, True)])


class Effects:
    """Finds the effects of expressions. With `refuse`, an order that C leaves open is refused."""

    def __init__(self, options):
        self.options = options
        self.refuse = False
        self.left_out = None

    def of(self, e):
        return Effect() if e is None or e is self.left_out else self.compute(e)

    def without(self, e, part):
        """The effect of an expression but for a part of it."""
        self.left_out = part
        try:
            return self.of(e)
        finally:
            self.left_out = None

    def unsequenced(self, parts, place):
        """The effect of parts whose order is open."""
        effects = [self.of(part) for part in parts]
        if self.refuse:
            for i, one in enumerate(effects):
                for j in range(i + 1, len(effects)):
                    self.compare(one, effects[j], place)
        whole = Effect()
        for effect in effects:
            whole |= effect
        return whole

    def compare(self, one, other, place):
        """Refuses two parts if one may write what the other uses."""
        for a, b in ((one, other), (other, one)):
            found = meet(a.writes, b.reads | b.writes)
            if found is None:
                continue
            if self.options.left_to_right and meet(a.open, b.reads | b.writes) is None \
                    and meet(b.open, a.reads | a.writes) is None:
                continue
            raise Refusal(place, f"C leaves the order open in which {shown(found)} is used here: "
                          "write two statements" + ("" if meet(a.open, b.reads | b.writes) else
                                                    ", or say --left-to-right"))

    def compute(self, e):
        place = e.place
        if isinstance(e, Name):
            return Effect(NOTHING if T.is_object(e.type) and not isinstance(e.type, T.Struct) else locations(e))
        if isinstance(e, Address):
            return self.place_effect(e.operand)
        if isinstance(e, (Deref, Index, Member)):
            return self.place_effect(e) | Effect(
                NOTHING if isinstance(e.type, T.Array) else self.read_locations(e))
        if isinstance(e, (Binary, Compare, Shift)):
            return self.unsequenced([e.left, e.right], place)
        if isinstance(e, Move):
            return self.unsequenced([e.base, e.offset], place)
        if isinstance(e, (Logical, Comma)):
            return self.of(e.left).settled() | self.of(e.right)
        if isinstance(e, Conditional):
            return self.of(e.test).settled() | self.of(e.left) | self.of(e.right)
        if isinstance(e, SETTING):
            return self.stores(e)[1]
        if isinstance(e, Call):
            own = Effect(e.routine.reads, e.routine.writes)
            return self.unsequenced(e.args, place).settled() | own
        if isinstance(e, Library):
            return self.unsequenced(e.args, place).settled() | self.library(e)
        if isinstance(e, RegionCall):
            done = [REGIONS] if e.name != "regionof" else []
            return self.unsequenced(e.args, place).settled() | Effect([], done)
        if isinstance(e, Allocate):
            parts = [part for part in (e.region, e.count) if part is not None]
            return self.unsequenced(parts, place)
        if isinstance(e, Literal):
            values = initial_parts(e.variable.initial)
            return self.unsequenced(values, place) | Effect([], locations(e) if isinstance(e.type, T.Struct) else [])
        whole = Effect()
        for part in e.children():
            whole |= self.of(part)
        return whole

    def read_locations(self, e):
        if isinstance(e, Member) and not e.arrow and isinstance(e.base, (Call, Assign, Conditional, Comma)):
            return NOTHING
        return locations(e)

    def place_effect(self, e):
        """The effect of finding out which object an lvalue is."""
        if isinstance(e, (Name, Literal)):
            return self.of(e) if isinstance(e, Literal) else Effect()
        if isinstance(e, Deref):
            return self.of(e.operand)
        if isinstance(e, Index):
            base = self.place_effect(e.base) if isinstance(e.base.type, T.Array) else self.of(e.base)
            index = self.of(e.index)
            if self.refuse:
                self.compare(base, index, e.place)
            return base | index
        if isinstance(e, Member):
            return self.of(e.base) if e.arrow else self.place_effect(e.base)
        return self.of(e)

    def stores(self, e):
        """The effect of an assignment, first of what comes before its own store, then whole. The store comes after the
        values, but not after their open writes. Where the value is an assignment itself, as in `a[i] = a[j] = 0`, both
        store the same value, so that the order of these two makes no difference."""
        target = self.place_effect(e.target)
        before = whole = target
        written = locations(e.target)
        old = NOTHING if isinstance(e, Assign) else written
        if not isinstance(e, Step):
            inner, effect = self.stores(e.value) if isinstance(e.value, SETTING) and e.value is not self.left_out \
                else 2 * (self.of(e.value),)
            if self.refuse:
                self.compare(target | Effect(old), effect, e.place)
            whole |= effect
            before |= inner if isinstance(e, Assign) and getattr(e.value, "prefix", True) else effect
        if self.refuse:
            found = meet(written, before.open)
            if found is not None:
                raise Refusal(e.place, f"C leaves the order open in which {shown(found)} is set here: write two statements")
        return before, Effect(whole.reads | old, whole.done, whole.open | written)

    def library(self, e):
        if e.name in ("memset", "memcpy"):
            cells = element_locations(e.type.to)
            return Effect(cells if e.name == "memcpy" else [], cells)
        if e.name == "printf":
            strings = any(piece[0] == "s" for piece in e.pieces)
            return Effect([self.byte()] if strings else [], [OUTPUT])
        letters = library.EFFECTS.get(e.name, "")
        reads = [self.byte()] if "r" in letters else []
        writes = [where for letter, where in (("w", self.byte()), ("I", INPUT), ("O", OUTPUT)) if letter in letters]
        return Effect(reads, writes)

    def byte(self):
        return ("cell", "char", None, True)

    # Pointers to what a call has made itself.

    def find_fresh(self, routines):
        """Finds the locals that only ever lead to objects made during the call of their function, each to others. What
        is done to such an object can't be seen from outside, but by a pointer to it that is left somewhere."""
        values = {}
        for routine in routines:
            for variable in routine.locals:
                variable.fresh = isinstance(variable.type, T.Pointer) and not variable.exposed
                values[variable] = [variable.initial] if variable.initial is not None else []
            routine.gives_fresh = isinstance(routine.type.result, T.Pointer)
        for routine in routines:
            for node in walk(routine.body):
                if isinstance(node, Assign) and isinstance(node.target, Name) and node.target.variable in values:
                    values[node.target.variable].append(node.value)
        changed = True
        while changed:
            changed = False
            for variable, given in values.items():
                if variable.fresh and not all(is_fresh(value) for value in given):
                    variable.fresh = False
                    changed = True
            for routine in routines:
                returned = [node.value for node in walk(routine.body) if isinstance(node, Return)]
                if routine.gives_fresh and not all(
                        is_fresh(value) or isinstance(value, Name) and value.variable.fresh for value in returned):
                    routine.gives_fresh = False
                    changed = True

    # The effects of whole functions.

    def summarize(self, routines):
        """Finds what calls of each function read and write."""
        changed = True
        while changed:
            changed = False
            for routine in routines:
                if routine.body is None:
                    continue
                reads, writes = set(), set()
                for e in expressions_of(routine.body):
                    effect = self.of(e)
                    reads |= effect.reads
                    writes |= effect.writes
                reads, writes = self.outside(reads, routine), self.outside(writes, routine)
                if routine.may_exit:
                    writes |= {OUTPUT, INPUT}
                if reads != routine.reads or writes != routine.writes:
                    routine.reads, routine.writes = reads, writes
                    changed = True

    def outside(self, places, routine):
        """What of these a caller can see."""
        return frozenset(place for place in places if not self.is_local(place, routine))

    def is_local(self, place, routine):
        variable = place[1] if place[0] == "value" else place[-2] if place[0] in ("cell", "field") else None
        return isinstance(variable, Variable) and variable.role != "global" and variable.function is routine

    def verify(self, routine):
        """Refuses what has an open order in a function."""
        self.refuse = True
        try:
            for e in expressions_of(routine.body):
                self.of(e)
            for node in walk(routine.body):
                if isinstance(node, Declare) and isinstance(node.variable.initial, Initial):
                    self.unsequenced(initial_parts(node.variable.initial), node.place)
        finally:
            self.refuse = False


def is_fresh(e):
    """Whether a value is null, or leads to an object that its evaluation has made."""
    if isinstance(e, Convert):
        return is_fresh(e.operand)
    if isinstance(e, Conditional):
        return is_fresh(e.left) and is_fresh(e.right)
    if isinstance(e, Call):
        return e.routine.body is not None and e.routine.gives_fresh
    return isinstance(e, (Allocate, Null))


def expressions_of(body):
    """The full expressions of a function's body."""
    for node in walk(body):
        if isinstance(node, Evaluate):
            yield node.expression
        elif isinstance(node, (If, While, Do, Switch)):
            yield node.test
        elif isinstance(node, For):
            yield from (e for e in (node.test, node.step) if e is not None)
        elif isinstance(node, Return) and node.value is not None:
            yield node.value
        elif isinstance(node, Declare):
            yield from initial_parts(node.variable.initial)
