"""The whole of a program: names, where objects lie, which functions delete, and the text of RC."""

import re

from . import library
from . import types as T
from .constants import folded
from .effects import Effects, struct_locations
from .output import Line, Nest, Term, written
from .places import Place, element_place, field_place, pointed
from .refusal import Refusal
from .statements import Statements, completes
from .tree import Call, Conditional, Initial, Name, Null, walk
from .lower import Lowering

HEADLINE = '#include "regions.h"'
MOST_CELLS = 1048576


class Program:
    def __init__(self, checker, options):
        self.checker, self.options = checker, options
        self.effects = Effects(options)
        self.refusals = list(checker.refusals)
        self.routines = [r for r in checker.routines if r.body is not None]
        self.used = set(checker.identifiers) | library.RESERVED | library.TAKEN
        for field_name in (f.name for s in checker.structs for f in s.fields):
            self.used.add(field_name)
        self.helpers, self.helper_order = {}, []
        self.new_globals, self.makers, self.maker_order = [], {}, []
        self.stopped, self.exit_status = "stopped", "exit_status"
        self.heap_name = None
        self.needs_heap = False

    def text(self):
        """The text of RC. The refusals that were found are raised by the caller."""
        self.find_calls()
        self.name_all()
        if any(r.exits and r.name != "main" for r in self.routines):
            self.stopped, self.exit_status = self.claim("stopped"), self.claim("exit_status")
        self.effects.find_fresh(self.routines)
        self.effects.summarize(self.routines)
        self.find_frames()
        self.place_objects()
        bodies = [(routine, self.attempt(routine)) for routine in self.routines]
        main = next((r for r in self.routines if r.name == "main"), None)
        if main is None:
            self.refusals.append(Refusal((self.options.file, 1), "no main"))
        if self.refusals:
            raise self.refusals[0]
        return self.whole(main, bodies)

    def attempt(self, routine):
        try:
            self.effects.verify(routine)
            return self.function(routine)
        except Refusal as refusal:
            self.refusals.append(refusal)
            return None

    # Calls.

    def find_calls(self):
        for routine in self.routines:
            for called in routine.calls:
                if called.body is None:
                    raise Refusal(called.place, f"the function {called.name} is declared and nowhere defined")
        for routine in self.routines:
            seen, todo = set(), list(routine.calls)
            while todo:
                called = todo.pop()
                if called not in seen:
                    seen.add(called)
                    todo += called.calls
            routine.recursive = routine in seen
            routine.reached = seen
        for routine in self.routines:
            routine.may_exit = any(r.exits and r.name != "main" for r in routine.reached | {routine})

    def find_frames(self):
        """Finds the functions that make a region for each of their calls, and those that delete regions."""
        for routine in self.routines:
            routine.framed = routine.recursive and self.needs_objects(routine)
        for routine in self.routines:
            routine.deletes = any(r.framed or r.deletes for r in routine.reached | {routine})

    def needs_objects(self, routine):
        """Whether each call of a function needs objects of its own."""
        if routine.makes_objects or any(T.is_object(v.type) or v.exposed for v in routine.locals):
            return True
        if any(self.needs_copy(routine, v) for v in routine.params):
            return True
        return any(isinstance(node.type, T.Struct) and isinstance(node, Conditional) or
                   isinstance(node, Call) and any(isinstance(arg.type, T.Struct) and not isinstance(arg, Name)
                                                  for arg in node.args) for node in walk(routine.body))

    def hoisted(self, routine):
        """Whether a call of the function has to stand by itself."""
        return routine.deletes or routine.may_exit

    # Names.

    def unused(self, hint, also=()):
        """A name that the program doesn't have."""
        name, count = hint, 1
        while name in self.used or name in also:
            count += 1
            name = f"{hint}_{count}"
        return name

    def claim(self, hint):
        name = self.unused(hint)
        self.used.add(name)
        return name

    def name_all(self):
        for struct in self.checker.structs:
            hint = struct.tag or "unnamed"
            struct.rc_tag = hint if hint not in library.RESERVED and hint not in library.TAKEN and not any(
                other.rc_tag == hint for other in self.checker.structs if other is not struct) else self.claim(hint)
            self.used.add(struct.rc_tag)
            for field in struct.fields:
                field.rc_name = self.claim(field.name) if field.name in library.RESERVED else field.name
        for variable in self.checker.globals:
            variable.rc_name = self.file_name(variable.name)
        for variable in self.checker.statics:
            variable.rc_name = self.claim(f"{variable.function.name}_{variable.name}")
        for routine in self.routines:
            routine.rc_name = self.file_name(routine.name)
            for variable in routine.params + routine.locals:
                variable.rc_name = self.local_name(variable)
        for variable in self.checker.globals:
            if variable.only_named:
                self.refusals.append(Refusal(variable.place, f"{variable.name} is declared and nowhere defined"))

    def file_name(self, name):
        return self.claim(name) if name in library.RESERVED or name in library.TAKEN else name

    def local_name(self, variable):
        hides = getattr(variable, "hides", False) or getattr(variable, "hides_global", False)
        if not variable.name or variable.name in library.RESERVED or variable.name == "literal" or hides \
                or variable.name in ("stdin", "stdout", "stderr", "linux", "unix", *library.REGIONS, "getchar", "putchar"):
            return self.claim(variable.name or "unnamed")
        return variable.name

    # Where objects lie.

    def place_objects(self):
        for variable in self.checker.globals + self.checker.statics:
            variable.form = "global" if T.is_object(variable.type) or variable.exposed else "value"
        for routine in self.routines:
            for variable in routine.locals:
                if T.is_object(variable.type) or variable.exposed:
                    self.give_object(routine, variable, variable.name)
            for variable in routine.params:
                if isinstance(variable.type, T.Struct):
                    variable.form = "pointer"

    def give_object(self, routine, variable, hint):
        """An object for a local: a global, or where the function is recursive one in the frame of the call."""
        if routine.framed:
            variable.form = "pointer"
        else:
            variable.form = "global"
            variable.rc_name = self.claim(f"{routine.name}_{hint}")
            self.new_globals.append(variable)

    def new_object(self, lowering, variable):
        """An object that turned out to be needed while a function was written."""
        self.give_object(lowering.routine, variable, variable.name)
        if variable.form == "pointer":
            variable.rc_name = lowering.fresh(variable.name)
            lowering.added.append(variable)
        return lowering.variable_place(variable)

    def heap(self, lowering):
        """The region for what malloc makes."""
        name = self.options.region or "heap_region"
        if self.options.region:
            for variable in lowering.routine.params + self.checker.globals:
                if variable.name == name and variable.type is T.REGION:
                    return variable.rc_name
        return self.own_heap()

    def own_heap(self):
        self.needs_heap = True
        if self.heap_name is None:
            self.heap_name = self.claim(self.options.region or "heap_region")
        return self.heap_name

    # Helpers.

    def helper(self, key):
        if key not in self.helpers:
            for needed in library.HELPERS[key][0]:
                self.helper(needed)
            self.helpers[key] = self.claim(key)
            self.helper_order.append(key)
        return self.helpers[key]

    def helper_text(self, key):
        text = library.HELPERS[key][1]
        for other, name in self.helpers.items():
            text = text.replace("{" + other + "}", name)
        return text

    def maker(self, struct, region, count):
        """A call that makes an object of a struct with parts in objects of their own, or an array of them."""
        if struct not in self.makers:
            self.makers[struct] = (self.claim(f"make_{struct.rc_tag}"), self.claim(f"make_{struct.rc_tag}_array"))
            self.maker_order.append(struct)
            for field in struct.fields:
                inner = T.flat(field.type)[0]
                if field.boxed and isinstance(inner, T.Struct) and T.has_boxes(inner):
                    self.maker(inner, region, None)
        one, many = self.makers[struct]
        return f"{one}({region})" if count is None else f"{many}({region}, {count.text})"

    def boxed_value(self, field, region):
        """The object of a boxed field."""
        inner, length = T.flat(field.type)
        count = Term(str(length), constant=length) if isinstance(field.type, T.Array) else None
        if T.has_boxes(inner):
            return self.maker(inner, region, count)
        if count is None:
            return f"ralloc({region}, {T.rc_type(inner)})"
        return f"rarrayalloc({region}, {length}, {T.rc_type(inner)})"

    def box(self, lowering, place, region):
        """Gives the boxed parts of a new object their objects."""
        if isinstance(place.type, T.Array):
            if T.has_boxes(place.type):
                lowering.each(place.type, lambda index: self.box(lowering, element_place(place, index), region))
        elif isinstance(place.type, T.Struct):
            for field in place.type.fields:
                if field.boxed:
                    head = field_text(place, field)
                    lowering.line(f"{head} = {self.boxed_value(field, region)};")
                elif T.has_boxes(field.type):
                    self.box(lowering, field_place(place, field), region)

    def maker_text(self, struct):
        one, many = self.makers[struct]
        lowering = self.bare_lowering()
        self.box(lowering, pointed(struct, Term("made")), "place")
        body = [Line(f"struct {struct.rc_tag} *made = ralloc(place, struct {struct.rc_tag});"), *lowering.out,
                Line("return made;")]
        lowering.out = []
        whole = Place(T.Array(struct, None), base=Term("made"))
        self.box(lowering, element_place(whole, Term("at", held="int")), "place")
        loop = Nest("for (at = 0; at < count; at++)", lowering.out)
        array = [Line("int at;"), Line(f"struct {struct.rc_tag} *made = rarrayalloc(place, count, struct {struct.rc_tag});"),
                 loop, Line("return made;")]
        return (f"struct {struct.rc_tag} *{one}(region place) {{\n" + "\n".join(written(body)) + "\n}\n",
                f"struct {struct.rc_tag} *{many}(region place, int count) {{\n" + "\n".join(written(array)) + "\n}\n")

    def bare_lowering(self):
        lowering = Lowering(self, self.routines[0])
        lowering.local_names = {"made", "at", "place", "count"}
        return lowering

    # Functions.

    def head(self, routine, names):
        params = [T.declared(T.Pointer(v.type) if isinstance(v.type, T.Struct) else v.type, name)
                  for v, name in zip(routine.params, names)]
        result = routine.type.result
        if isinstance(result, T.Struct):
            params.insert(0, T.declared(T.Pointer(result), routine.result_name))
            result = T.VOID
        if routine.name == "main":
            params = []
        return T.declared(result, f"{routine.rc_name}({', '.join(params) or 'void'})") + (
            " deletes" if routine.deletes else "")

    def function(self, routine):
        """The head of a function and its statements."""
        lowering = Statements(self, routine)
        lowering.added = []
        names = [v.rc_name for v in routine.params]
        lowering.local_names = set(names) | {v.rc_name for v in routine.locals}
        routine.result_name = None
        if isinstance(routine.type.result, T.Struct):
            routine.result_name = lowering.result_name = lowering.fresh("result")
        if routine.framed:
            lowering.frame = lowering.fresh("frame")
        entry = self.copied_params(routine, lowering, names)
        body = lowering.body(routine.body)
        if body and isinstance(body[-1], Line) and body[-1].text == "return;":
            body.pop()
        elif lowering.frame is not None and completes(routine.body):
            body.append(Line(f"deleteregion({lowering.frame});"))
        start = self.frame_start(routine, lowering) if routine.framed else []
        return self.head(routine, names), start + entry + body

    def copied_params(self, routine, lowering, names):
        """Parameters that need an object of their own get a copy."""
        for variable in routine.params:
            if not self.needs_copy(routine, variable):
                continue
            struct = isinstance(variable.type, T.Struct)
            given = variable.rc_name
            if struct:
                given_place = pointed(variable.type, Term(given))
            else:
                given_place = Place(variable.type, Term(given))
            variable.rc_name = lowering.fresh(f"own_{variable.name}")
            self.give_object(routine, variable, f"own_{variable.name}" if variable.form != "pointer" else variable.name)
            lowering.copy(lowering.variable_place(variable), given_place)
        made, lowering.out = lowering.out, []
        return made

    def needs_copy(self, routine, variable):
        """Whether a parameter needs an object of its own."""
        struct = isinstance(variable.type, T.Struct)
        return routine.name != "main" and (variable.exposed or struct and (
            variable.assigned or self.may_change(routine, variable.type)))

    def may_change(self, routine, struct):
        """Whether a struct that was handed in could be changed by others during the call. What is handed in may lie in
        any variable, also in one that no pointer of the program leads to."""
        parts = {place[:-2] for place in struct_locations(struct, None, True)}
        return any(place[:-2] in parts for place in routine.writes)

    def frame_start(self, routine, lowering):
        made = [Line(f"region {lowering.frame} = newregion();")]
        variables = [v for v in routine.params if v.form == "pointer" and v.rc_name.startswith("own_")] + [
            v for v in routine.locals if v.form == "pointer"] + lowering.added
        for variable in variables:
            inner, length = T.flat(variable.type) if isinstance(variable.type, T.Array) else (variable.type, None)
            if T.has_boxes(inner):
                value = self.maker(inner, lowering.frame, Term(str(length)) if length is not None else None)
            elif length is None:
                value = f"ralloc({lowering.frame}, {T.rc_type(inner)})"
            else:
                value = f"rarrayalloc({lowering.frame}, {length}, {T.rc_type(inner)})"
            made.append(Line(f"{T.declared(T.Pointer(inner), variable.rc_name)} = {value};"))
        return made

    # Globals.

    def initial_text(self, variable):
        """The value that a global begins with in its declaration, "" where it is 0, None where it is set in main."""
        value = variable.initial
        if value is None or isinstance(value, Null):
            return ""
        if isinstance(value, Initial) or not T.is_number(variable.type):
            return None
        number = folded(value)
        if number is None:
            raise Refusal(variable.place, f"the value of {variable.name} is no constant")
        number = variable.type.wrap(number)
        if number == 0:
            return ""
        if number == T.INT.low or not -(1 << 31) <= number < 1 << 32:
            return None
        return f" = {number}" + ("u" if variable.type.held == "unsigned" else "")

    def set_globals(self, variables):
        """The statements that give globals what their declarations can't."""
        lowering = Lowering(self, next(r for r in self.routines if r.name == "main"))
        for variable in variables:
            place = lowering.variable_place(variable)
            if T.has_boxes(variable.type):
                self.box(lowering, place, self.own_heap())
        for variable in variables:
            if variable.role == "global" and self.initial_text(variable) is None:
                lowering.initialize(lowering.variable_place(variable), variable.initial, blank=True)
        return lowering.out

    # The text.

    def whole(self, main, bodies):
        owned = self.checker.globals + self.checker.statics
        words = set(re.findall(r"\w+", "\n".join(line for _, (_, body) in bodies for line in written(body))))
        self.new_globals = [variable for variable in self.new_globals if variable.rc_name in words]
        setting = self.set_globals(owned + self.new_globals)
        texts = [HEADLINE, ""]
        for struct in self.checker.structs:
            texts += self.struct_text(struct)
        makers = [self.maker_text(struct) for struct in self.maker_order]
        declared = []
        if self.needs_heap:
            declared.append(f"region {self.own_heap()};")
        if self.stopped_used(bodies):
            declared.append(f"int {self.stopped}, {self.exit_status};")
        for variable in owned:
            declared.append(T.declared(variable.type, variable.rc_name) + (self.initial_text(variable) or "") + ";")
        for variable in self.new_globals:
            declared.append(T.declared(variable.type, variable.rc_name) + ";")
        self.check_cells(owned + self.new_globals)
        texts += declared + [""] if declared else []
        for key in self.helper_order:
            texts.append(self.helper_text(key))
        if makers:
            texts += [head.split(" {\n")[0] + ";" for pair in makers for head in pair] + [""]
            texts += [text for pair in makers for text in pair]
        texts += self.prototypes(bodies)
        if setting:
            name = self.claim("set_globals")
            texts.append(f"void {name}(void) {{\n" + "\n".join(written(setting)) + "\n}\n")
            setting = [Line(f"{name}();")]
        for routine, (head, body) in bodies:
            if routine is main:
                body = ([Line(f"{self.heap_name} = newregion();")] if self.needs_heap else []) + setting + body
            texts.append("\n".join([head + " {", *written(body), "}", ""]))
        return "\n".join(texts).rstrip("\n") + "\n"

    def stopped_used(self, bodies):
        return any(r.exits and r.name != "main" for r, _ in bodies)

    def check_cells(self, variables):
        """Refuses globals that are more than RC takes."""
        count = 0
        for variable in variables:
            count += T.cells(variable.type)
            if count > MOST_CELLS:
                raise Refusal(variable.place, f"{variable.name}: RC has at most {MOST_CELLS} cells of globals")

    def struct_text(self, struct):
        made = [f"struct {struct.rc_tag} {{"]
        for field in struct.fields:
            type_ = field.type
            if field.boxed:
                type_ = T.Pointer(T.flat(type_)[0] if isinstance(type_, T.Array) else type_)
            made.append(f"    {T.declared(type_, field.rc_name)};")
        return made + ["};", ""]

    def prototypes(self, bodies):
        """Declarations of functions that are called before they are defined."""
        seen, made = set(), []
        for routine, (head, _) in bodies:
            seen.add(routine)
            for called, (other, _) in bodies:
                if called in routine.calls and called not in seen:
                    line = other + ";"
                    if line not in made:
                        made.append(line)
        return made + [""] if made else []


def field_text(place, field):
    """A boxed field itself, not what it leads to."""
    made = field_place(place, field)
    if isinstance(field.type, T.Array):
        return made.base.text
    return made.pointer.text
