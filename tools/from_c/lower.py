"""Expressions as RC: side effects become statements before or after, and what is left has none."""

from . import library
from . import types as T
from .constants import folded
from .effects import locations, meet, root
from .expressions import character
from .output import LEVELS, POSTFIX, Line, Nest, Term, binary, negated, number, string, unary
from .places import Place, element_place, field_place, held_of, named, pointed, times
from .refusal import Refusal
from .tree import (Address, Allocate, Assign, Call, Comma, Conditional, Convert, Deref, Index, Initial, Library, Literal,
                   Logical, Member, Name, Null, Number, RegionCall, Step, Text, Update, Variable, walk)

# An object with at most so many parts is given its values one by one; a larger one is set to zero first.
FEW = 12


def leaf_paths(type_, path):
    """The paths to all numbers and pointers of an object, as an initial value has them."""
    if isinstance(type_, T.Array):
        return [leaf for at in range(min(type_.count, FEW + 1)) for leaf in leaf_paths(type_.of, path + (("index", at),))]
    if isinstance(type_, T.Struct):
        return [leaf for field in type_.fields for leaf in leaf_paths(field.type, path + (("field", field),))]
    return [path]


class Lowering:
    """What a function becomes. `out` is the list of statements that is being written to."""

    def __init__(self, program, routine):
        self.program, self.routine, self.effects = program, routine, program.effects
        self.out, self.later, self.whole = [], None, None
        self.local_names = set()
        self.frame = None

    # Names and statements.

    def fresh(self, hint):
        name = self.program.unused(hint, self.local_names)
        self.local_names.add(name)
        return name

    def line(self, text):
        self.out.append(Line(text))

    def temporary(self, hint, type_, term):
        """A new local with a value."""
        name = self.fresh(hint)
        self.line(f"{T.declared(type_, name)} = {term.text};")
        return Term(name, POSTFIX, held_of(type_))

    def inside(self, work, *words):
        """The statements that some work writes, in a list of their own. Late side effects end in it."""
        outer, self.out = self.out, []
        later, self.later = self.later, [] if self.later is not None else None
        result = work(*words)
        self.flush()
        made, self.out, self.later = self.out, outer, later
        return result, made

    def flush(self):
        """Writes the side effects that were put off."""
        if self.later:
            late, self.later[:] = list(self.later), []
            for statements in late:
                self.out += statements

    def fully(self, e, work):
        """Works on a whole expression, after which side effects may come late."""
        kept = self.later, self.whole
        self.later, self.whole = [], e
        result = work()
        self.flush()
        self.later, self.whole = kept
        return result

    def object(self, hint, type_):
        """A new object that lives as long as the call, for a struct without a name."""
        variable = Variable(hint, type_, "local", self.routine.place, self.routine)
        variable.exposed = True
        return self.program.new_object(self, variable)

    # Places.

    def place(self, e):
        if isinstance(e, Name):
            return self.variable_place(e.variable)
        if isinstance(e, Literal):
            place = self.variable_place(e.variable)
            self.initialize(place, e.variable.initial)
            return place
        if isinstance(e, Deref):
            return pointed(e.type, self.value(e.operand))
        if isinstance(e, Index):
            return self.indexed(e)
        if isinstance(e, Member):
            base = pointed(e.struct, self.value(e.base)) if e.arrow else self.place(e.base)
            return field_place(base, e.field)
        if isinstance(e, Text):
            return Place(e.type, base=Term(string(e.data)))
        return self.struct_value(e)

    def variable_place(self, variable):
        if variable.form == "pointer":
            return pointed(variable.type, Term(variable.rc_name))
        if variable.form == "global" or variable.role == "global":
            return named(variable.type, variable.rc_name)
        return Place(variable.type, Term(variable.rc_name, POSTFIX, held_of(variable.type)))

    def indexed(self, e):
        if isinstance(e.base.type, T.Array):
            base, index = self.operands([lambda: self.place(e.base), lambda: self.value(e.index)], [e.base, e.index])
            return element_place(base, index)
        base, index = self.operands([lambda: self.value(e.base), lambda: self.value(e.index)], [e.base, e.index])
        return element_place(Place(T.Array(e.type, None), base=base), index)

    def operands(self, works, parts):
        """Lowers operands whose order is open. One that a later one's statements could disturb is kept in a local
        first; this is so only where the order from left to right was asked for."""
        made = []
        for work in works:
            made.append(self.inside_same(work))
        terms = []
        for at, (term, statements) in enumerate(made):
            self.out += statements
            behind = [part for part, (_, after) in zip(parts[at + 1:], made[at + 1:]) if after]
            if behind and isinstance(term, Term) and self.disturbed(parts[at], behind):
                term = self.temporary("value", parts[at].type, term)
            terms.append(term)
        return terms

    def inside_same(self, work):
        """The statements of some work in a list of their own, its late side effects put off further."""
        outer, self.out = self.out, []
        result = work()
        made, self.out = self.out, outer
        return result, made

    def disturbed(self, part, others):
        mine = self.effects.of(part)
        for other in others:
            theirs = self.effects.of(other)
            if meet(theirs.writes, mine.reads | mine.writes) or meet(mine.writes, theirs.reads):
                return True
        return False

    def stable(self, place, e):
        """A place that may be named twice: its calls are made once, before."""
        if not place.calls():
            return place
        if place.pointer is None:
            raise Refusal(e.place, "a call inside of what is assigned to: write two statements")
        return pointed(e.type, self.temporary("place", T.Pointer(e.type), place.pointer))

    # Values.

    def value(self, e, passed=False):
        """The value of an expression that is no struct. `passed`: RC converts the number to the wanted type itself."""
        work = getattr(self, "value_" + type(e).__name__)
        return work(e, passed) if isinstance(e, Convert) else work(e)

    def value_Number(self, e):
        if e.type.wide() and not -(1 << 31) <= e.value < 1 << 32:
            raise Refusal(e.place, f"the number {e.value} has more than 32 bits")
        if e.text is not None and e.type.held != "unsigned":
            return Term(e.text, POSTFIX, "int", e.value if e.text != "EOF" else None)
        if e.text is not None:
            return Term(e.text if e.text.endswith("u") else e.text + "u", POSTFIX, "unsigned", e.value)
        return number(e.value, "unsigned" if e.type.held == "unsigned" else "int")

    def value_Null(self, e):
        return Term("NULL")

    def value_Name(self, e):
        return self.place(e).term

    value_Deref = value_Index = value_Member = value_Name

    def value_Address(self, e):
        place = self.place(e.operand)
        if isinstance(e.operand.type, T.Array):
            return place.start()
        if place.pointer is None:
            raise Refusal(e.place, "the address of what lies inside of another object")
        return place.pointer

    def value_Text(self, e):
        return Term(string(e.data))

    def value_Move(self, e):
        base, offset = self.operands([lambda: self.value(e.base), lambda: self.value(e.offset)], [e.base, e.offset])
        to = e.base.type.to
        if isinstance(to, T.Array):
            offset = times(offset, T.flat(to)[1])
        if offset.constant == 0:
            return base
        return binary(e.op, base, offset, None)

    def value_Unary(self, e):
        if e.op == "!":
            term = self.value(e.operand)
            return unary("!", term, "int") if term.text.startswith("!") else negated(term)
        held = e.type.held
        operand = self.as_held(self.value(e.operand), held)
        if operand.constant is not None and e.op == "-" and held == "int":
            return number(-operand.constant)
        return unary(e.op, operand, held)

    def as_held(self, term, held):
        """A number as one of int or unsigned."""
        if term.held == held or term.held == "char" and held == "int":
            return term
        if term.constant is not None and held == "unsigned" and term.constant >= 0 and term.text.isdigit():
            return number(term.constant, "unsigned")
        return unary(f"({held})", term, held)

    def value_Binary(self, e):
        left, right = self.operands([lambda: self.value(e.left), lambda: self.value(e.right)], [e.left, e.right])
        return self.arithmetic(e.op, left, right, e.type.held)

    def arithmetic(self, op, left, right, held):
        """An operation whose sides meet as `held`."""
        if held == "int":
            left, right = self.as_held(left, "int"), self.as_held(right, "int")
        elif "unsigned" not in (left.held, right.held):
            if right.constant is not None and right.constant >= 0:
                right = self.as_held(right, "unsigned")
            else:
                left = self.as_held(left, "unsigned")
        return binary(op, left, right, held)

    def value_Shift(self, e):
        left, right = self.operands([lambda: self.value(e.left), lambda: self.value(e.right)], [e.left, e.right])
        return binary(e.op, self.as_held(left, e.type.held), right, e.type.held)

    def value_Compare(self, e):
        left, right = self.operands([lambda: self.value(e.left), lambda: self.value(e.right)], [e.left, e.right])
        if T.is_number(e.left.type):
            made = self.arithmetic(e.op, left, right, T.common(e.left.type, e.right.type).held)
            made.held = "int"
            return made
        return binary(e.op, left, right, "int")

    def value_Logical(self, e):
        left = self.value(e.left)
        right, statements = self.inside(self.value, e.right)
        if not statements:
            return binary(e.op, left, right, "int")
        name = self.fresh("both" if e.op == "&&" else "either")
        self.line(f"int {name} = {self.one_or_zero(left).text};")
        statements = self.branch(name, e.right, T.INT, True)
        self.out.append(Nest(f"if ({name})" if e.op == "&&" else f"if (!{name})", statements))
        return Term(name, POSTFIX, "int", parts=(e.op,))

    def one_or_zero(self, term):
        if term.parts and term.parts[0] in ("==", "!=", "<", ">", "<=", ">=", "&&", "||") or term.text.startswith("!"):
            return term
        return binary("!=", term, Term("NULL") if term.held is None else number(0), "int")

    def branch(self, name, e, type_, logical=False):
        """The statements that give a local the value of an expression."""
        def work():
            term = self.value(e, passed=not logical)
            self.line(f"{name} = {(self.one_or_zero(term) if logical else term).text};")
        return self.inside(work)[1]

    def value_Conditional(self, e):
        test = self.value(e.test)
        if T.is_number(e.type):
            (left, before), (right, behind) = self.inside(self.value, e.left), self.inside(self.value, e.right)
            if not before and not behind:
                if e.type.held == "int":
                    left, right = self.as_held(left, "int"), self.as_held(right, "int")
                elif "unsigned" not in (left.held, right.held):
                    left = self.as_held(left, "unsigned")
                level = LEVELS["?"]
                return Term(f"{test.at(level + 1)} ? {left.at(level + 1)} : {right.at(level)}", level, e.type.held,
                            None, test.calls or left.calls or right.calls)
        if isinstance(e.type, T.Void):
            raise Refusal(e.place, "a value of type void")
        name = self.fresh("choice")
        self.line(f"{T.declared(e.type, name)};")
        self.out.append(Nest(f"if ({test.text})", self.branch(name, e.left, e.type),
                             self.branch(name, e.right, e.type)))
        return Term(name, POSTFIX, held_of(e.type))

    def value_Comma(self, e):
        self.fully(e.left, lambda: self.discard(e.left))
        return self.value(e.right)

    def value_Convert(self, e, passed=False):
        if isinstance(e.type, T.Void):
            raise Refusal(e.place, "a value of type void")
        if not T.is_number(e.type):
            return self.value(e.operand)
        term = self.value(e.operand)
        return self.converted(term, e.operand.type, e.type, passed and not e.explicit)

    def converted(self, term, source, type_, passed=False):
        """A number, or a pointer as a truth value, converted as C does."""
        if type_ is T.BOOL:
            return self.one_or_zero(term)
        fits = type_.low <= source.low and source.high <= type_.high
        if type_.wide() or type_.same_as_held():
            if passed or term.held == type_.held or term.held == "char" and type_.held == "int":
                return term
            if term.held == "int" and type_.held == "unsigned" and term.constant is not None and term.constant >= 0:
                return self.as_held(term, "unsigned")
            return unary(f"({type_.held})", term, type_.held)
        if fits:
            return term
        mask = (1 << (8 * type_.size)) - 1
        made = binary("&", term, number(mask), term.held)
        if type_.signed:
            half = (mask + 1) // 2
            made = binary("-", binary("^", made, number(half), term.held), number(half), term.held)
        return self.as_held(made, "int")

    # Assignments.

    def value_Assign(self, e):
        if isinstance(e.type, T.Struct):
            return self.struct_value(e).term
        kept = self.kept_value(e)
        place, value = self.assignment_sides(e)
        if kept:
            value = self.temporary("value", e.type, value)
        self.line(f"{place.term.text} = {value.text};")
        if kept:
            return value
        if value.constant is not None and T.is_number(e.type) and e.type.low <= value.constant <= e.type.high:
            return value
        return place.term

    def kept_value(self, e):
        """Whether the value of an assignment can't be read from its place again."""
        target = self.effects.place_effect(e.target)
        return bool(target.writes) or bool(meet(target.reads, locations(e.target))) or any(
            isinstance(node, (Call, Library)) for node in walk(e.target))

    def assignment_sides(self, e, whole=False):
        return self.operands([lambda: self.place(e.target), lambda: self.assigned(e.value, whole)], [e.target, e.value])

    def assigned(self, e, whole=False):
        """A value that is assigned or passed. `whole`: it is all that its statement evaluates."""
        if whole and isinstance(e, Call) and self.program.hoisted(e.routine):
            return self.call_term(e)
        if isinstance(e, Number) and e.text is None and 0 <= e.value <= T.INT.high:
            return number(e.value)
        return self.value(e, passed=True)

    def value_Update(self, e):
        kept = self.kept_value(e)
        place = self.update(e, kept)
        return self.temporary("value", e.type, place.term) if kept else place.term

    def update(self, e, twice=False):
        """Writes `place op= value;` and answers the place."""
        place, value = self.operands([lambda: self.place(e.target), lambda: self.value(e.value)], [e.target, e.value])
        return self.updated(e, place, value, twice)

    def updated(self, e, place, value, twice=False):
        type_ = e.target.type
        if twice:
            place = self.stable(place, e.target)
        if isinstance(type_, T.Pointer):
            if isinstance(type_.to, T.Array):
                value = times(value, T.flat(type_.to)[1])
            self.line(f"{place.term.text} {e.op}= {value.text};")
            return place
        direct = type_.same_as_held() or type_.wide()
        meeting = "unsigned" if "unsigned" in (type_.held, value.held if e.op not in ("<<", ">>") else None) else "int"
        if direct and meeting == e.inner.held:
            self.line(f"{place.term.text} {e.op}= {value.text};")
            return place
        place = self.stable(place, e.target)
        if e.op in ("<<", ">>"):
            made = binary(e.op, self.as_held(place.term, e.inner.held), value, e.inner.held)
        else:
            made = self.arithmetic(e.op, place.term, value, e.inner.held)
        self.line(f"{place.term.text} = {self.converted(made, e.inner, type_, True).text};")
        return place

    def value_Step(self, e):
        if e.prefix:
            kept = self.kept_value(e)
            place = self.step(e, kept)
            return self.temporary("value", e.type, place.term) if kept else place.term
        if self.later is not None and self.can_wait(e):
            place, statements = self.inside_same(lambda: self.place(e.target))
            self.out += statements
            self.later.append(self.inside_same(lambda: self.stepped(e, place))[1])
            return place.term
        place = self.stable(self.place(e.target), e.target)
        old = self.temporary("old", e.type, place.term)
        self.stepped(e, place)
        return old

    def can_wait(self, e):
        """Whether a side effect may come at the end of the whole expression: nothing else in it looks."""
        if any(isinstance(node, (Call, Library)) for node in walk(e.target)):
            return False
        rest = self.effects.without(self.whole, e)
        used = self.effects.place_effect(e.target)
        return not meet(locations(e.target), rest.reads | rest.writes) and not meet(used.reads, rest.writes) \
            and not used.writes

    def step(self, e, twice=False):
        place = self.place(e.target)
        if twice:
            place = self.stable(place, e.target)
        return self.stepped(e, place)

    def stepped(self, e, place):
        """Writes `place++;` or `place--;`."""
        type_ = e.target.type
        if isinstance(type_, T.Pointer) and isinstance(type_.to, T.Array):
            self.line(f"{place.term.text} {e.op[0]}= {T.flat(type_.to)[1]};")
        elif isinstance(type_, T.Pointer) or type_.same_as_held() or type_.wide():
            self.line(f"{place.term.at(POSTFIX)}{e.op};")
        else:
            place = self.stable(place, e.target)
            made = binary(e.op[0], place.term, number(1), "int")
            self.line(f"{place.term.text} = {self.converted(made, T.INT, type_, True).text};")
        return place

    # Calls.

    def value_Call(self, e):
        if isinstance(e.type, T.Void):
            raise Refusal(e.place, "a value of type void")
        term = self.call_term(e)
        if not self.program.hoisted(e.routine):
            return term
        made = self.temporary("result", e.type, term)
        self.leave_if_stopped(e.routine)
        return made

    def call_term(self, e, first=None):
        """A call in RC. `first` is where its struct is to be put."""
        parts = list(e.args)
        terms = self.operands([lambda arg=arg: self.argument(arg) for arg in parts], parts)
        texts = ([first.text] if first is not None else []) + [term.text for term in terms]
        return Term(f"{e.routine.rc_name}({', '.join(texts)})", POSTFIX, held_of(e.type), None, True)

    def argument(self, e):
        if isinstance(e.type, T.Struct):
            place = self.struct_value(e)
            if place.pointer is None:
                whole = self.object("argument", e.type)
                self.copy(whole, place)
                place = whole
            return place.pointer
        return self.assigned(e)

    def leave_if_stopped(self, routine):
        """Leaves the function too where a called one has ended the program."""
        if routine.may_exit:
            self.out.append(Nest(f"if ({self.program.stopped})", [self.leaving()]))

    def leaving(self):
        """The statement that leaves a function of which the value doesn't matter any more."""
        if self.routine.name == "main":
            return Line(f"return {self.program.exit_status};")
        result = self.routine.type.result
        if isinstance(result, (T.Void, T.Struct)):
            return Line("return;")
        return Line("return 0;" if T.is_number(result) else "return NULL;")

    def value_Allocate(self, e):
        if e.element is None:
            raise Refusal(e.place, "an allocation whose type isn't said: assign it to a pointer or cast it")
        parts = [part for part in (e.region, e.count) if part is not None]
        terms = self.operands([lambda part=part: self.value(part, True) for part in parts], parts)
        region = terms[0].text if e.region is not None else self.program.heap(self)
        element, group = T.flat(e.element) if isinstance(e.element, T.Array) else (e.element, 1)
        count = terms[-1] if e.count is not None else number(1) if isinstance(e.element, T.Array) else None
        if T.has_boxes(element):
            return Term(self.program.maker(element, region, count and times(count, group)), calls=True)
        if count is None:
            return Term(f"ralloc({region}, {T.rc_type(element)})", calls=True)
        return Term(f"rarrayalloc({region}, {times(count, group).text}, {T.rc_type(element)})", calls=True)

    def value_RegionCall(self, e):
        terms = self.operands([lambda arg=arg: self.value(arg) for arg in e.args], e.args)
        return Term(f"{e.name}({', '.join(term.text for term in terms)})", calls=True)

    def value_Library(self, e):
        if e.name == "printf":
            raise Refusal(e.place, "the result of printf")
        if isinstance(e.type, T.Void):
            raise Refusal(e.place, "a value of type void")
        if e.name in ("memset", "memcpy"):
            return self.memory(e)
        if e.name in ("fputs", "fflush"):
            raise Refusal(e.place, f"the result of {e.name}")
        terms = self.operands([lambda arg=arg: self.value(arg, True) for arg in e.args], e.args)
        name = {"getc": "getchar", "fgetc": "getchar", "putc": "putchar", "fputc": "putchar"}.get(e.name, e.name)
        if name not in ("getchar", "putchar"):
            name = self.program.helper(library.STANDS_FOR[name])
        return Term(f"{name}({', '.join(term.text for term in terms)})", POSTFIX,
                    None if e.type == library.STRING else "int", None, True)

    def value_Literal(self, e):
        return self.place(e).term

    # Structs.

    def struct_value(self, e):
        """The place of a struct's value."""
        if isinstance(e, (Name, Deref, Index, Member, Literal)):
            return self.place(e)
        if isinstance(e, Call):
            made = self.object("result", e.type)
            self.struct_call(e, made)
            return made
        if isinstance(e, Assign):
            return self.struct_assign(e)
        if isinstance(e, Comma):
            self.fully(e.left, lambda: self.discard(e.left))
            return self.struct_value(e.right)
        if isinstance(e, Conditional):
            made = self.object("choice", e.type)
            test = self.value(e.test)
            self.out.append(Nest(f"if ({test.text})",
                                 self.inside(lambda: self.copy(made, self.struct_value(e.left)))[1],
                                 self.inside(lambda: self.copy(made, self.struct_value(e.right)))[1]))
            return made
        raise Refusal(e.place, "a struct in this place")

    def struct_call(self, e, made):
        self.line(self.call_term(e, made.pointer).text + ";")
        self.leave_if_stopped(e.routine)

    def struct_assign(self, e):
        place = self.stable(self.place(e.target), e.target)
        if isinstance(e.value, Call) and place.pointer is not None and self.owned(e.target, e.value):
            self.struct_call(e.value, place)
        else:
            self.copy(place, self.struct_value(e.value))
        return place

    def owned(self, target, call):
        """Whether the called function can't see the struct that its result goes to."""
        variable = root(target)
        if not isinstance(target, Name) or variable.role == "global" or variable.exposed:
            return False
        return not any(isinstance(node, Name) and node.variable is variable for node in walk(call))

    def copy(self, to, from_):
        """Copies an object: whole where RC can, else part by part."""
        if to.type is not from_.type and to.type != from_.type:
            raise AssertionError("objects of two types")
        type_ = to.type
        if isinstance(type_, T.Array):
            self.each(type_, lambda index: self.copy(element_place(to, index), element_place(from_, index)))
        elif isinstance(type_, T.Struct) and (T.has_boxes(type_) or T.cells(type_) > 256):
            for field in type_.fields:
                self.copy(field_place(to, field), field_place(from_, field))
        elif to.term.text != from_.term.text:
            self.line(f"{to.term.text} = {from_.term.text};")

    def clear(self, to):
        """Sets an object to zero."""
        if isinstance(to.type, T.Array):
            self.each(to.type, lambda index: self.clear(element_place(to, index)))
        elif isinstance(to.type, T.Struct):
            for field in to.type.fields:
                self.clear(field_place(to, field))
        else:
            self.line(f"{to.term.text} = {'0' if T.is_number(to.type) else 'NULL'};")

    def each(self, type_, work):
        """Does something with each element of an array."""
        if type_.count <= 4:
            for at in range(type_.count):
                work(number(at))
            return
        name = self.fresh("i")
        body = self.inside_same(lambda: work(Term(name, POSTFIX, "int")))[1]
        self.out.append(Nest(f"for (int {name} = 0; {name} < {type_.count}; {name}++)", body))

    def initialize(self, place, initial, blank=False):
        """Gives an object its initial value. `blank`: it is zero already."""
        if not isinstance(initial, Initial):
            if isinstance(initial, Call) and isinstance(place.type, T.Struct) and place.pointer is not None:
                self.struct_call(initial, place)
            elif isinstance(place.type, T.Struct):
                self.copy(place, self.struct_value(initial))
            else:
                self.line(f"{place.term.text} = {self.assigned(initial, True).text};")
            return
        leaves = initial.leaves
        if not initial.complete and not blank:
            paths = leaf_paths(place.type, ())
            if len(paths) <= FEW and not any(isinstance(value, Text) and T.is_object(value.type) and hasattr(value, "covers")
                                             for _, value in leaves):
                known = dict(leaves)
                leaves = [(path, known.get(path)) for path in paths
                          if path in known or not any(path[:len(other)] == other for other in known)]
                leaves += [(path, value) for path, value in initial.leaves if path not in paths]
                initial = Initial(leaves, True)
            else:
                self.clear(place)
        for path, value in leaves:
            part = place
            for kind, step in path:
                part = element_place(part, number(step)) if kind == "index" else field_place(part, step)
            if value is None:
                self.clear(part)
            elif isinstance(value, Text) and isinstance(part.type, T.Array):
                self.fill_text(part, value)
            elif isinstance(part.type, T.Struct):
                self.copy(part, self.struct_value(value))
            elif not (blank or not initial.complete) or not (isinstance(value, Null) or folded(value) == 0):
                self.line(f"{part.term.text} = {self.value(value, True).text};")

    def fill_text(self, place, text):
        data = text.data + b"\0" * (text.covers - len(text.data))
        if place.reached and len(data) > 4:
            self.line(f"{self.program.helper('copy_bytes')}({place.start().text}, {string(text.data)}, {len(data)});")
            return
        for at, byte in enumerate(data):
            self.line(f"{element_place(place, number(at)).term.text} = {character(byte)};")

    # Expressions as statements.

    def discard(self, e):
        """Evaluates an expression for what it does."""
        if isinstance(e, Convert):
            self.discard(e.operand)
        elif isinstance(e, Assign):
            self.assign(e)
        elif isinstance(e, Update):
            self.update(e)
        elif isinstance(e, Step):
            self.step(e)
        elif isinstance(e, Comma):
            self.fully(e.left, lambda: self.discard(e.left))
            self.discard(e.right)
        elif isinstance(e, Logical):
            test = self.value(e.left)
            self.when(test if e.op == "&&" else negated(test), e.right)
        elif isinstance(e, Conditional):
            self.discard_conditional(e)
        elif isinstance(e, Call):
            self.discard_call(e)
        elif isinstance(e, Library):
            self.discard_library(e)
        elif isinstance(e, (RegionCall, Allocate)):
            self.line(self.value(e).text + ";")
        else:
            for part in e.children():
                self.discard(part)

    def when(self, test, e):
        statements = self.inside(lambda: self.fully(e, lambda: self.discard(e)))[1]
        if statements:
            self.out.append(Nest(f"if ({test.text})", statements))
        elif test.calls:
            self.line(test.text + ";")

    def discard_conditional(self, e):
        test = self.value(e.test)
        left = self.inside(lambda: self.fully(e.left, lambda: self.discard(e.left)))[1]
        right = self.inside(lambda: self.fully(e.right, lambda: self.discard(e.right)))[1]
        if left or right:
            self.out.append(Nest(f"if ({test.text})", left, right) if left else
                            Nest(f"if ({negated(test).text})", right))
        elif test.calls:
            self.line(test.text + ";")

    def assign(self, e):
        if isinstance(e.type, T.Struct):
            self.struct_assign(e)
            return
        whole = isinstance(e.target, Name) and e.target.variable.form == "value" and e.target.variable.role != "global"
        place, value = self.assignment_sides(e, whole)
        self.line(f"{place.term.text} = {value.text};")
        if whole and isinstance(e.value, Call):
            self.leave_if_stopped(e.value.routine)

    def discard_call(self, e):
        if isinstance(e.type, T.Struct):
            self.struct_value(e)
            return
        self.line(self.call_term(e).text + ";")
        self.leave_if_stopped(e.routine)

    def discard_library(self, e):
        if e.name == "printf":
            self.print(e)
        elif e.name == "fputs":
            self.write_text(self.value(e.args[0]), e.args[0])
        elif e.name == "puts" and isinstance(e.args[0], Address) and isinstance(e.args[0].operand, Text):
            self.write_bytes(e.args[0].operand.data + b"\n")
        elif e.name == "free":
            self.discard(e.args[0])
        elif e.name == "exit":
            self.exit(e)
        elif e.name == "assert":
            test = self.value(e.args[0])
            stop = Line(f"{self.program.helper('stop_at_failed_assertion')}();")
            self.out.append(Nest(f"if ({negated(test).text})", [stop]))
        elif e.name in ("memset", "memcpy"):
            self.memory(e)
        elif e.name != "fflush":
            self.line(self.value(e).text + ";")

    def exit(self, e):
        status = self.value(e.args[0])
        if self.routine.name == "main":
            self.line(f"return {status.text};")
            return
        self.line(f"{self.program.exit_status} = {status.text};")
        self.line(f"{self.program.stopped} = 1;")
        self.out.append(self.leaving())

    def memory(self, e):
        """memset and memcpy."""
        terms = self.operands([lambda arg=arg: self.value(arg, True) for arg in e.args], e.args)
        to, value, count = terms
        element = e.type.to
        if T.is_number(element) and element.held == "char":
            name = self.program.helper("fill_bytes" if e.name == "memset" else "copy_bytes")
            self.line(f"{name}({to.text}, {value.text}, {count.text});")
            return to
        to = to if to.simple() else self.temporary("to", e.type, to)
        if e.name == "memcpy" and not value.simple():
            value = self.temporary("from", e.args[1].type, value)
        place = Place(T.Array(element, count.constant), base=to)

        def part(index):
            if e.name == "memset":
                self.clear(element_place(place, index))
            else:
                self.copy(element_place(place, index), element_place(Place(T.Array(element, None), base=value), index))

        if count.constant is not None:
            if count.constant == 1 and not isinstance(element, T.Array):
                target = pointed(element, to)
                self.clear(target) if e.name == "memset" else self.copy(target, pointed(element, value))
            else:
                self.each(place.type, part)
            return to
        name = self.fresh("i")
        body = self.inside_same(lambda: part(Term(name, POSTFIX, "int")))[1]
        self.out.append(Nest(f"for (int {name} = 0; {name} < {count.text}; {name}++)", body))
        return to

    # Output.

    def write_bytes(self, data):
        if len(data) == 1:
            self.line(f"putchar({character(data[0])});")
        elif data:
            self.line(f"{self.program.helper('write_text')}({string(data)});")

    def write_text(self, term, e):
        if isinstance(e, Address) and isinstance(e.operand, Text):
            self.write_bytes(e.operand.data)
        else:
            self.line(f"{self.program.helper('write_text')}({term.text});")

    def print(self, e):
        """printf: a statement for each piece of the format."""
        used = [at for piece in e.pieces if piece[0] != "text" for at in self.arguments_of(piece)]
        first = self.arguments_of(e.pieces[0])[:1] if e.pieces and e.pieces[0][0] != "text" else []
        terms = {}
        doing = [at for at in used if self.does_something(e.args[at])]
        inlined = doing == first
        works = [lambda at=at: self.value(e.args[at], True) for at in used]
        values = self.operands(works, [e.args[at] for at in used])
        for at, term in zip(used, values):
            if at in doing and not inlined and term.constant is None:
                term = self.temporary("value", e.args[at].type, term)
            terms[at] = term
        for piece in e.pieces:
            if piece[0] == "text":
                self.write_bytes(piece[1])
            else:
                self.write_piece(piece, terms, e)

    def arguments_of(self, piece):
        return [part for part in piece[2:] if isinstance(part, int)]

    def does_something(self, e):
        effect = self.effects.of(e)
        return bool(effect.done) or any(isinstance(node, Call) and self.program.hoisted(node.routine) for node in walk(e)) \
            or bool(effect.writes) and any(isinstance(node, (Call, Library)) for node in walk(e))

    def write_piece(self, piece, terms, e):
        letter, flags, width, precision, at = piece

        def size(part, missing):
            return number(missing) if part is None else number(part[1]) if isinstance(part, tuple) else terms[part]

        helper, value = self.program.helper, terms[at]
        wide, digits = size(width, 0), size(precision, -1)
        filling = 2 if "-" in flags else 1 if "0" in flags and precision is None else 0
        sign = "'+'" if "+" in flags else "' '" if " " in flags else "0"
        if letter == "c":
            if filling != 2 and wide.constant != 0:
                self.line(f"{helper('write_many')}(' ', {self.less_one(wide)});")
            self.line(f"putchar({value.text});")
            if filling == 2 and wide.constant != 0:
                self.line(f"{helper('write_many')}(' ', {self.less_one(wide)});")
        elif letter == "s":
            if width is None and precision is None:
                self.write_text(value, e.args[at])
            else:
                self.line(f"{helper('write_text_field')}({value.text}, {wide.text}, {filling}, {digits.text});")
        elif letter in "di":
            if width is None and precision is None and sign == "0":
                self.line(f"{helper('write_int')}({value.text});")
            else:
                self.line(f"{helper('write_int_field')}({value.text}, {sign}, {wide.text}, {filling}, {digits.text});")
        else:
            base = {"u": 10, "o": 8}.get(letter, 16)
            case = "'A'" if letter == "X" else "'a'"
            if width is None and precision is None:
                call = f"{helper('write_unsigned')}({value.text})" if base == 10 else \
                    f"{helper('write_based')}({value.text}, {base}, {case})"
                self.line(call + ";")
            else:
                self.line(f"{helper('write_field')}(0, {value.text}, {base}, {case}, {wide.text}, {filling}, "
                          f"{digits.text});")

    def less_one(self, term):
        return number(term.constant - 1).text if term.constant is not None else binary("-", term, number(1), "int").text
