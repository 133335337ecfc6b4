"""The tree of a program after its types are known. Each expression has a C type and a place (file, line)."""


class Variable:
    """A variable. `role` is global, local or param; `exposed` says that pointers may lead to it.
    `form` says how RC holds it: as a value, as a global (object), or behind a pointer. `fresh`: a local pointer that
    only ever leads to objects made during the call."""

    def __init__(self, name, type_, role, place, function=None):
        self.name, self.type, self.role, self.place, self.function = name, type_, role, place, function
        self.exposed = self.assigned = self.used = self.fresh = False
        self.rc_name = None
        self.form = "value"
        self.initial = None

    def __repr__(self):
        return f"<{self.name}>"


class Routine:
    """A function of the program."""

    def __init__(self, name, type_, place):
        self.name, self.type, self.place = name, type_, place
        self.params, self.body, self.locals = [], None, []
        self.calls, self.exits = set(), False
        self.makes_objects = self.recursive = self.deletes = self.framed = self.may_exit = False
        self.reads, self.writes = frozenset(), frozenset()
        self.rc_name = None
        self.gives_fresh = False
        self.result_name = None


class Node:
    parts = ()

    def __init__(self, place, **words):
        self.place = place
        self.type = None
        for key, value in words.items():
            setattr(self, key, value)

    def children(self):
        for name in self.parts:
            value = getattr(self, name)
            if isinstance(value, list):
                yield from value
            elif value is not None:
                yield value


def node_class(name, *parts):
    return type(name, (Node,), {"parts": parts})


# Expressions. `parts` are the operands.
Number = node_class("Number")                       # value, text
Text = node_class("Text")                           # data: bytes without the closing 0
Null = node_class("Null")
Name = node_class("Name")                           # variable
Call = node_class("Call", "args")                   # routine
Library = node_class("Library", "args")             # name, and what the library needs more
Allocate = node_class("Allocate", "count")          # element
Unary = node_class("Unary", "operand")              # op: - ~ !
Deref = node_class("Deref", "operand")
Address = node_class("Address", "operand")
Index = node_class("Index", "base", "index")
Member = node_class("Member", "base")               # field
Binary = node_class("Binary", "left", "right")      # op, numbers
Compare = node_class("Compare", "left", "right")    # op
Shift = node_class("Shift", "left", "right")        # op
Move = node_class("Move", "base", "offset")         # op: + -, a pointer and a number
Logical = node_class("Logical", "left", "right")    # op: && ||
Conditional = node_class("Conditional", "test", "left", "right")
Comma = node_class("Comma", "left", "right")
Assign = node_class("Assign", "target", "value")
Update = node_class("Update", "target", "value")    # op=, with `inner`: the type of the operation
Step = node_class("Step", "target")                 # op ++ or --, prefix
Convert = node_class("Convert", "operand")          # explicit
Literal = node_class("Literal")                     # a compound literal: variable
RegionCall = node_class("RegionCall", "args")       # name: a function of regions

# Statements.
Block = node_class("Block", "items")
Evaluate = node_class("Evaluate", "expression")
Declare = node_class("Declare")                     # variable
If = node_class("If", "test", "then", "other")
While = node_class("While", "test", "body")
Do = node_class("Do", "body", "test")
For = node_class("For", "start", "test", "step", "body")
Switch = node_class("Switch", "test")               # sections: [(labels, default, items)]
Break = node_class("Break")
Continue = node_class("Continue")
Return = node_class("Return", "value")


class Initial:
    """The initial value of an array or struct: leaves [(path, expression)], and whether all is set by them."""

    def __init__(self, leaves, complete):
        self.leaves, self.complete = leaves, complete


def walk(node):
    """A node and all nodes in it; sections of switches and initial values as well."""
    if node is None:
        return
    yield node
    for child in node.children():
        yield from walk(child)
    if isinstance(node, Switch):
        for _, _, items in node.sections:
            for item in items:
                yield from walk(item)
    elif isinstance(node, (Declare, Literal)):
        for value in initial_parts(node.variable.initial):
            yield from walk(value)


def initial_parts(initial):
    """The expressions of an initial value."""
    if initial is None:
        return []
    if isinstance(initial, Initial):
        return [value for _, value in initial.leaves]
    return [initial]
