"""Statements as RC: loops whose conditions have side effects, switches, and what a function does at its ends."""

from . import types as T
from .lower import Lowering
from .output import Line, Nest, Term, binary, negated, number
from .places import pointed
from .tree import (Assign, Block, Break, Call, Continue, Convert, Declare, Do, Evaluate, For, If, Initial, Library, Logical,
                   Name, Number, Return, Step, Switch, Update, While, walk)

LOOPS = (While, Do, For)
# A switch with more branches than this becomes no chain of else: RC takes 198 in each other.
MOST_ARMS = 90


def completes(node):
    """Whether the end of a statement may be reached."""
    if isinstance(node, list):
        return all(completes(item) for item in node)
    if isinstance(node, (Break, Continue, Return)):
        return False
    if isinstance(node, Block):
        return completes(node.items)
    if isinstance(node, If):
        return node.other is None or completes(node.then) or completes(node.other)
    if isinstance(node, Evaluate) and isinstance(node.expression, Library):
        return node.expression.name != "exit"
    if isinstance(node, (For, While)):
        endless = node.test is None or isinstance(node.test, Number) and node.test.value != 0
        return not endless or finds(node.body, Break, LOOPS + (Switch,))
    return True


def finds(node, wanted, closed):
    """Whether a statement has one of the kind `wanted` in it, outside of those that are `closed`."""
    if isinstance(node, list):
        return any(finds(item, wanted, closed) for item in node)
    if isinstance(node, wanted):
        return True
    if node is None or isinstance(node, closed):
        return False
    if isinstance(node, Switch):
        return any(finds(items, wanted, closed) for _, _, items in node.sections)
    if isinstance(node, If):
        return finds(node.then, wanted, closed) or finds(node.other, wanted, closed)
    if isinstance(node, Block):
        return finds(node.items, wanted, closed)
    return isinstance(node, LOOPS) and finds(node.body, wanted, closed)


def without_last_breaks(node):
    """The items of the last section of a run without the breaks after which nothing of the run would come."""
    if isinstance(node, list):
        if not node:
            return node
        cut = next((at for at, item in enumerate(node) if isinstance(item, Break)), None)
        if cut is not None:
            return without_last_breaks(node[:cut])
        return node[:-1] + [without_last_breaks(node[-1])]
    if isinstance(node, Block):
        return Block(node.place, items=without_last_breaks(node.items))
    if isinstance(node, Break):
        return Block(node.place, items=[])
    if isinstance(node, If):
        return If(node.place, test=node.test, then=without_last_breaks(node.then),
                  other=without_last_breaks(node.other) if node.other is not None else None)
    return node


class Statements(Lowering):
    def __init__(self, program, routine):
        super().__init__(program, routine)
        self.contexts = []
        self.hoisted_names = set()
        self.result_name = None

    def statement(self, node):
        getattr(self, "do_" + type(node).__name__)(node)

    def body(self, node):
        """The statements of a branch or a loop's body."""
        def work():
            if isinstance(node, Block):
                for item in node.items:
                    self.statement(item)
            elif node is not None:
                self.statement(node)
        kept, self.later = self.later, None
        made = self.inside(work)[1]
        self.later = kept
        alone = made[0] if len(made) == 1 else None
        return alone.body if isinstance(alone, Nest) and not alone.head else made

    def do_Block(self, node):
        self.keep_names(self.body(node))

    def keep_names(self, made):
        """Writes statements, in a block of their own if they declare something."""
        if self.has_declarations(made):
            self.out.append(Nest("", made))
        else:
            self.out += made

    def has_declarations(self, statements):
        return any(isinstance(s, Line) and self.declares(s) for s in statements)

    def declares(self, line):
        return line.text.startswith(("int ", "unsigned ", "char ", "struct ", "region "))

    def do_Evaluate(self, node):
        e = node.expression
        self.fully(e, lambda: self.discard(e))

    def do_Declare(self, node):
        variable = node.variable
        if variable.form != "value":
            if variable.initial is not None:
                self.fully_initial(variable, lambda: self.initialize(self.variable_place(variable), variable.initial))
            return
        head = T.declared(variable.type, variable.rc_name)
        if variable not in self.hoisted_names and variable.initial is not None and self.mentions(variable):
            self.line(head + ";")
            self.hoisted_names.add(variable)
        if variable in self.hoisted_names:
            if variable.initial is not None:
                self.fully_initial(variable, lambda: self.line(
                    f"{variable.rc_name} = {self.assigned(variable.initial, True).text};"))
                self.leave_after(variable.initial)
            return
        if variable.initial is None:
            self.line(head + ";")
            return
        self.fully_initial(variable, lambda: self.line(f"{head} = {self.assigned(variable.initial, True).text};"))
        self.leave_after(variable.initial)

    def mentions(self, variable):
        """Whether a variable stands in its own first value."""
        return any(isinstance(node, Name) and node.variable is variable for node in walk(variable.initial))

    def leave_after(self, e):
        """What has to follow where a value was a call that stands by itself."""
        if isinstance(e, Call):
            self.leave_if_stopped(e.routine)

    def fully_initial(self, variable, work):
        e = variable.initial
        if isinstance(e, Initial):
            kept, self.later = self.later, None
            work()
            self.later = kept
        else:
            self.fully(e, work)

    # Branches.

    def do_If(self, node):
        test = self.value(node.test)
        then = self.body(node.then)
        other = self.body(node.other) if node.other is not None else None
        if not then and other:
            test, then, other = negated(test), other, None
        if then or other or test.calls:
            self.out.append(Nest(f"if ({test.text})", then, other or None))

    # Loops.

    def condition(self, test):
        """A condition and the statements that it needs before."""
        return self.inside(lambda: self.value(test)) if test is not None else (None, [])

    def leave_unless(self, test):
        """Leaves a loop where a condition doesn't hold."""
        if isinstance(test, Logical) and test.op == "&&":
            self.leave_unless(test.left)
            self.leave_unless(test.right)
        elif not (isinstance(test, Number) and test.value):
            self.out.append(Nest(f"if ({negated(self.value(test)).text})", [Line("break;")]))

    def in_loop(self, before_continue, work):
        """Writes a loop's body: `before_continue` writes what each `continue` has to do first."""
        self.contexts.append(("loop", before_continue))
        made = work()
        self.contexts.pop()
        return made

    def do_While(self, node):
        test, before = self.condition(node.test)
        if before:
            def work():
                self.leave_unless(node.test)
                self.out += self.body(node.body)
            self.out.append(Nest("for (;;)", self.in_loop(None, lambda: self.inside(work)[1])))
        elif isinstance(node.test, Number) and node.test.value:
            self.out.append(Nest("for (;;)", self.in_loop(None, lambda: self.body(node.body))))
        else:
            self.out.append(Nest(f"while ({test.text})", self.in_loop(None, lambda: self.body(node.body))))

    def do_Do(self, node):
        test, before = self.condition(node.test)
        if not before:
            self.out.append(Nest("do", self.in_loop(None, lambda: self.body(node.body)), tail=f"while ({test.text});"))
            return
        again = self.fresh("again")
        self.line(f"int {again};")

        def repeat():
            term = self.value(node.test)
            self.line(f"{again} = {self.one_or_zero(term).text};")

        def work():
            self.out += self.body(node.body)
            if completes(node.body):
                repeat()
        body = self.in_loop(repeat, lambda: self.inside(work)[1])
        self.out.append(Nest("do", body, tail=f"while ({again});"))

    def do_For(self, node):
        self.keep_names(self.inside(lambda: self.for_loop(node))[1])

    def for_loop(self, node):
        start = self.inside(lambda: [self.statement(item) for item in node.start])[1]
        test, before = self.condition(node.test)
        endless = node.test is None or isinstance(node.test, Number) and node.test.value != 0
        steps = self.inside(lambda: self.fully(node.step, lambda: self.discard(node.step)))[1] if node.step else []
        last = steps[-1].text[:-1] if steps and isinstance(steps[-1], Line) and not self.declares(steps[-1]) \
            and not steps[-1].text.startswith("return") else ""
        rest = steps[:-1] if last else steps

        def repeat():
            self.out += rest

        def work():
            if before:
                self.leave_unless(node.test)
            self.out += self.body(node.body)
            if completes(node.body):
                repeat()
        body = self.in_loop(repeat, lambda: self.inside(work)[1])
        first = ""
        if start and isinstance(start[-1], Line) and (len(start) == 1 or not self.declares(start[-1])) \
                and self.fits_head(node, start[-1]):
            first = start.pop().text[:-1]
        self.out += start
        shown = "" if before or endless else test.text
        head = f"for ({first}; {shown}; {last})" if shown or last else f"for ({first};;)"
        if not first and not last and shown:
            head = f"while ({shown})"
        self.out.append(Nest(head, body))

    def fits_head(self, node, line):
        """Whether the last statement before a `for` may stand in its head."""
        return len(node.start) == 1 and not line.text.startswith("return")

    def do_Break(self, node):
        self.line("break;")

    def do_Continue(self, node):
        """Inside of a switch that became a loop, `continue` sets a flag and leaves that first."""
        kind, what = self.contexts[-1]
        if kind == "switch":
            self.line(f"{what} = 1;")
            self.line("break;")
            return
        if what is not None:
            what()
        self.line("continue;")

    # Switches.

    def do_Switch(self, node):
        self.keep_names(self.inside(lambda: self.switch(node))[1])

    def switch(self, node):
        test = self.value(node.test)
        sections = [s for s in node.sections if s[0] or s[1]]
        for _, _, items in node.sections:
            for item in items:
                if isinstance(item, Declare) and item.variable.form == "value":
                    self.line(T.declared(item.variable.type, item.variable.rc_name) + ";")
                    self.hoisted_names.add(item.variable)
        if not sections:
            self.line(test.text + ";") if test.calls else None
            return
        if test.constant is None and (not test.simple() or self.changes(node)):
            test = self.temporary("selected", T.INT if test.held != "unsigned" else T.UNSIGNED, test)
        runs, run = [], []
        for section in sections:
            run.append(section)
            if not completes(section[2]):
                runs.append(run)
                run = []
        if run:
            runs.append(run)
        runs = [run[:-1] + [(run[-1][0], run[-1][1], without_last_breaks(run[-1][2]))] for run in runs]
        flat = len(runs) > MOST_ARMS
        breaks = flat or any(finds(items, Break, LOOPS + (Switch,)) for run in runs for _, _, items in run)
        continues = breaks and any(finds(items, Continue, LOOPS) for run in runs for _, _, items in run)
        if not breaks:
            self.chain(test, runs)
            return
        flag = None
        if continues:
            flag = self.fresh("next_round")
            self.line(f"int {flag} = 0;")
            self.contexts.append(("switch", flag))
        body = self.inside(lambda: self.chain(test, runs, flat))[1]
        if continues:
            self.contexts.pop()
        self.out.append(Nest("do", body, tail="while (0);"))
        if continues:
            self.out.append(Nest(f"if ({flag})", self.inside(lambda: self.do_Continue(None))[1]))

    def changes(self, node):
        """Whether a switch may change what it looks at before it has looked for the last time."""
        inner = node.test.operand if isinstance(node.test, Convert) else node.test
        if not isinstance(inner, Name) or inner.variable.form != "value" or inner.variable.role == "global":
            return True
        return any(isinstance(e, (Assign, Update, Step)) and isinstance(e.target, Name)
                   and e.target.variable is inner.variable
                   for _, _, items in node.sections for item in items for e in walk(item))

    def chain(self, test, runs, flat=False):
        """The sections as if .. else if: each run of sections that fall through is one branch. `flat`: they stand one
        after the other in a loop, and each ends it, since RC bounds how deep an else may stand."""
        arms, last = [], None
        for run in runs:
            if any(default for _, default, _ in run):
                last = run
            else:
                arms.append(run)
        made = self.run(test, last) if last is not None else []
        if flat:
            for run in arms:
                labels = [label for section in run for label in section[0]]
                self.out.append(Nest(f"if ({self.one_of(test, labels).text})", self.run(test, run) + [Line("break;")]))
            self.out += made
            return
        for run in reversed(arms):
            labels = [label for section in run for label in section[0]]
            body = self.run(test, run)
            test_here = self.one_of(test, labels)
            if body:
                made = [Nest(f"if ({test_here.text})", body, made or None)]
            elif made:
                made = [Nest(f"if ({negated(test_here).text})", made)]
        self.out += made

    def one_of(self, test, labels):
        made = None
        for label in labels:
            side = number(label, "unsigned" if test.held == "unsigned" else "int")
            one = binary("==", test, side, "int")
            made = one if made is None else binary("||", made, one, "int")
        return made if made is not None else number(0)

    def run(self, test, run):
        """Sections that fall into one another."""
        made = []
        at_default = next((at for at, section in enumerate(run) if section[1]), None)
        for at, (_, _, items) in enumerate(run):
            body = self.body(Block(None, items=items))
            if at == len(run) - 1:
                made += body if len(run) == 1 or not self.has_declarations(body) else [Nest("", body)]
            elif at_default is not None and at >= at_default:
                later = [label for section in run[at + 1:] for label in section[0]]
                if body:
                    made.append(Nest(f"if ({negated(self.one_of(test, later)).text})", body) if later else Nest("", body))
            else:
                labels = [label for section in run[:at + 1] for label in section[0]]
                if body:
                    made.append(Nest(f"if ({self.one_of(test, labels).text})", body))
        return made

    # Ends.

    def do_Return(self, node):
        if node.value is None:
            self.end()
            result = self.routine.type.result
            missing = "" if isinstance(result, (T.Void, T.Struct)) else " 0" if T.is_number(result) else " NULL"
            self.line(f"return{missing};")
            return
        if isinstance(node.value.type, T.Struct):
            self.return_struct(node)
            return
        self.later, self.whole = [], node.value
        value = self.assigned(node.value, self.frame is None and self.routine.name != "main")
        late, self.later, self.whole = self.later, None, None
        if late and any(not self.dead(line) for lines in late for line in lines) or \
                self.frame is not None and not self.survives(value, node.value):
            value = self.temporary("result", self.routine.type.result, value)
        for lines in late:
            self.out += [line for line in lines if not self.dead(line)]
        self.end()
        self.line(f"return {value.text};")

    def dead(self, line):
        """Whether a late side effect is on a local, which ends with the function."""
        name = line.text[:-1].replace("++", "").replace("--", "")
        return any(v.form == "value" and v.role != "global" and v.rc_name == name
                   for v in self.routine.locals + self.routine.params)

    def survives(self, value, e):
        """Whether a value may be read after the frame's end."""
        return value.constant is not None or value.text in self.local_names or value.text == "NULL" or any(
            v.form == "value" and v.rc_name == value.text for v in self.routine.locals + self.routine.params)

    def return_struct(self, node):
        self.whole, self.later = node.value, []
        if isinstance(node.value, Call):
            self.struct_call(node.value, self.result_place())
        else:
            self.copy(self.result_place(), self.struct_value(node.value))
        self.flush()
        self.later = self.whole = None
        self.end()
        self.line("return;")

    def result_place(self):
        """Where the caller wants the struct that the function returns."""
        return pointed(self.routine.type.result, Term(self.result_name))

    def end(self):
        """What the function does at each of its ends."""
        if self.frame is not None:
            self.line(f"deleteregion({self.frame});")
