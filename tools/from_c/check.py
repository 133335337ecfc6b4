"""Names and types: makes the tree of a program of pycparser's, and refuses what has no RC."""

import os

from pycparser import c_ast

from . import constants, library
from . import types as T
from .expressions import Expressions
from .preprocess import HEADERS
from .refusal import Refusal, place_of
from .tree import (Block, Break, Continue, Declare, Do, Evaluate, For, If, Initial, Return, Routine, Switch, Variable,
                   While)

WORDS_OF_TYPES = {
    "_Bool": T.BOOL, "char": T.CHAR, "char signed": T.SIGNED_CHAR, "char unsigned": T.UNSIGNED_CHAR,
    "short": T.SHORT, "short unsigned": T.UNSIGNED_SHORT, "int": T.INT, "": T.INT, "unsigned": T.UNSIGNED,
    "long": T.LONG, "long unsigned": T.UNSIGNED_LONG, "long long": T.LONG_LONG,
    "long long unsigned": T.UNSIGNED_LONG_LONG, "void": T.VOID,
}
MOST_CELLS = 4096


class Checker(Expressions):
    """Goes through a file once. What can't be taken inside a function is noted, and the next one is read."""

    def __init__(self, options):
        super().__init__(options)
        self.structs, self.globals, self.statics = [], [], []
        self.refusals = []
        self.names.append({})
        self.tags.append({})
        self.identifiers = set()

    # Declarations of types.

    def type_of(self, node):
        """The type that a declarator, or a type's words, stand for."""
        if isinstance(node, c_ast.TypeDecl):
            return self.base_type(node.type)
        if isinstance(node, c_ast.Typename):
            return self.type_of(node.type)
        if isinstance(node, c_ast.PtrDecl):
            if isinstance(node.type, c_ast.FuncDecl):
                raise Refusal(place_of(node), "a pointer to a function")
            return T.Pointer(self.type_of(node.type))
        if isinstance(node, c_ast.ArrayDecl):
            return self.array_type(node)
        if isinstance(node, c_ast.FuncDecl):
            return self.function_type(node)
        return self.base_type(node)

    def array_type(self, node):
        of = self.type_of(node.type)
        if isinstance(of, (T.Function, T.Void)) or isinstance(of, T.Struct) and of.fields is None:
            raise Refusal(place_of(node), f"an array of {of}")
        if node.dim is None:
            return T.Array(of, None)
        count = constants.folded(self.expression(node.dim))
        if count is None:
            raise Refusal(place_of(node), "an array whose length isn't a constant")
        if count <= 0:
            raise Refusal(place_of(node), f"an array of length {count}")
        return T.Array(of, count)

    def function_type(self, node):
        params = node.args.params if node.args else []
        if any(isinstance(p, c_ast.EllipsisParam) for p in params):
            raise Refusal(place_of(node), "a function with `...`")
        result = self.type_of(node.type)
        if isinstance(result, (T.Array, T.Function)):
            raise Refusal(place_of(node), f"a function that returns {result}")
        if params and isinstance(params[0], c_ast.ID):
            raise Refusal(place_of(node), "a function's parameters in the old style")
        types = [self.parameter_type(p) for p in params]
        if types == [T.VOID]:
            types = []
        return T.Function(result, types, node.args is None)

    def parameter_type(self, node):
        type_ = self.type_of(node.type)
        if isinstance(type_, T.Function):
            raise Refusal(place_of(node), "a pointer to a function")
        return T.Pointer(type_.of) if isinstance(type_, T.Array) else type_

    def base_type(self, node):
        if isinstance(node, c_ast.Struct):
            return self.struct_type(node)
        if isinstance(node, c_ast.Union):
            raise Refusal(place_of(node), "a union")
        if isinstance(node, c_ast.Enum):
            return self.enum_type(node)
        if not isinstance(node, c_ast.IdentifierType):
            raise Refusal(place_of(node), "a type of this kind")
        if len(node.names) == 1:
            found = self.find(node.names[0])
            if isinstance(found, tuple) and found[0] == "typedef":
                return found[1]
        words = sorted(word for word in node.names if word != "int" or len(node.names) == 1)
        for word in words:
            if word in ("float", "double", "_Complex", "__int128"):
                raise Refusal(place_of(node), f"the type {' '.join(node.names)}")
        if words in (["signed"], ["int", "signed"]):
            words = ["int"]
        key = " ".join(word for word in words if word != "signed" or "char" in words)
        if key not in WORDS_OF_TYPES:
            raise Refusal(place_of(node), f"the type {' '.join(node.names)}")
        return WORDS_OF_TYPES[key]

    def struct_type(self, node):
        made = None
        if node.name:
            scopes = self.tags[-1:] if node.decls is not None else reversed(self.tags)
            made = next((scope[node.name] for scope in scopes if node.name in scope), None)
        if made is None:
            made = T.Struct(node.name, place_of(node))
            if node.name:
                self.tags[-1][node.name] = made
        if not isinstance(made, T.Struct):
            raise Refusal(place_of(node), f"{node.name} is no struct")
        if node.decls is not None:
            if made.fields is not None:
                raise Refusal(place_of(node), f"struct {node.name} is defined twice")
            made.fields = self.fields(node)
            if T.cells(made) > MOST_CELLS:
                raise Refusal(place_of(node), f"{made} has more than {MOST_CELLS} cells")
            self.structs.append(made)
        return made

    def fields(self, node):
        made = []
        for decl in node.decls:
            place = place_of(decl) or place_of(node)
            if not isinstance(decl, c_ast.Decl):
                continue
            if decl.bitsize is not None:
                raise Refusal(place, "a bit-field")
            if decl.name is None:
                if isinstance(decl.type, c_ast.Struct) and decl.type.name and decl.type.decls is not None:
                    self.type_of(decl.type)
                    continue
                if isinstance(decl.type, c_ast.Union):
                    raise Refusal(place, "a union")
                raise Refusal(place, "a field without a name")
            type_ = self.type_of(decl.type)
            self.usable(type_, place, f"the field {decl.name}")
            if isinstance(type_, T.Array) and type_.count is None:
                raise Refusal(place, f"the field {decl.name} is an array without a length")
            if any(field.name == decl.name for field in made):
                raise Refusal(place, f"the field {decl.name} stands there twice")
            made.append(T.Field(decl.name, type_))
        if not made:
            raise Refusal(place_of(node), "a struct without fields")
        return made

    def enum_type(self, node):
        if node.values is None:
            found = next((scope[node.name] for scope in reversed(self.tags) if node.name in scope), None)
            if found is None:
                raise Refusal(place_of(node), f"enum {node.name} is nowhere defined")
            return found
        value, low = 0, 0
        for item in node.values.enumerators:
            if item.value is not None:
                value = constants.folded(self.expression(item.value))
                if value is None:
                    raise Refusal(place_of(item), f"the value of {item.name} is no constant")
            if not T.INT.low <= value <= T.INT.high:
                raise Refusal(place_of(item), f"the value of {item.name} is no int")
            self.names[-1][item.name] = ("enum", value)
            low = min(low, value)
            value += 1
        made = T.UNSIGNED if low == 0 else T.INT
        if node.name:
            self.tags[-1][node.name] = made
        return made

    def usable(self, type_, place, what):
        """Refuses a type that no object of RC can have."""
        inner = type_
        while isinstance(inner, (T.Pointer, T.Array)):
            if isinstance(inner, T.Pointer) and isinstance(inner.to, T.Void):
                raise Refusal(place, f"{what} is a void *: RC has only pointers to a type")
            inner = inner.to if isinstance(inner, T.Pointer) else inner.of
        if isinstance(inner, T.Function):
            raise Refusal(place, f"{what}: a pointer to a function")
        if isinstance(inner, T.Int) and inner.wide() and not self.options.int_is_enough:
            raise Refusal(place, f"{what} is {inner}: RC has 32 bits; say --int-is-enough where they do")
        if isinstance(type_, T.Void):
            raise Refusal(place, f"{what} is void")
        if isinstance(inner, T.Struct) and inner.tag == "from_c_file":
            raise Refusal(place, f"{what} is a stream: only stdin and stdout are there")
        if isinstance(type_, T.Struct) and type_.fields is None:
            raise Refusal(place, f"{what}: {type_} isn't defined yet")

    # The file.

    def file(self, tree):
        self.defined = {node.decl.name for node in tree.ext if isinstance(node, c_ast.FuncDef)}
        for node in tree.ext:
            place = place_of(node) or (self.options.file, 1)
            self.in_header = os.path.dirname(os.path.abspath(place[0])) == HEADERS
            if isinstance(node, c_ast.FuncDef):
                self.function(node)
            elif isinstance(node, c_ast.Typedef):
                self.typedef(node)
            elif isinstance(node, c_ast.Decl):
                self.external(node)
            elif isinstance(node, c_ast.StaticAssert):
                if not constants.folded(self.expression(node.cond)):
                    raise Refusal(place, "a static assertion that fails, or that is no constant")
            elif isinstance(node, c_ast.Pragma) or node is None:
                pass
            else:
                raise Refusal(place, "this outside of functions")

    def typedef(self, node):
        place = place_of(node)
        if self.in_header and node.name == "region":
            self.names[-1]["region"] = ("typedef", T.REGION)
            return
        if isinstance(node.type, c_ast.FuncDecl):
            raise Refusal(place, f"the type {node.name} is a function's")
        type_ = self.type_of(node.type)
        if isinstance(type_, T.Struct) and type_.tag is None:
            type_.tag = node.name
        self.names[-1][node.name] = ("typedef", type_)
        if not self.in_header:
            self.identifiers.add(node.name)

    def external(self, node):
        if node.name is None:
            self.type_of(node.type)
            return
        place = place_of(node)
        if self.in_header:
            self.names[-1][node.name] = ("library", node.name)
            return
        if isinstance(node.type, c_ast.FuncDecl):
            self.prototype(node)
            return
        type_ = self.type_of(node.type)
        if isinstance(type_, T.Function):
            raise Refusal(place, "a function's type behind a typedef")
        known = self.names[-1].get(node.name)
        if isinstance(known, Variable):
            if known.type != type_ and not (isinstance(type_, T.Array) and isinstance(known.type, T.Array)):
                raise Refusal(place, f"{node.name} is declared with two types")
            variable = known
        else:
            variable = Variable(node.name, type_, "global", place)
            variable.only_named = True
            self.names[-1][node.name] = variable
            self.globals.append(variable)
        if node.init is not None:
            variable.type, variable.initial = self.initial(type_, node.init, place)
        elif isinstance(variable.type, T.Array) and variable.type.count is None:
            variable.type = type_
        if "extern" not in node.storage or node.init is not None:
            variable.only_named = False
        self.usable(variable.type, place, node.name)
        if isinstance(variable.type, T.Array) and variable.type.count is None and not variable.only_named:
            raise Refusal(place, f"the array {node.name} has no length")
        self.identifiers.add(node.name)
        self.no_doubts()

    def prototype(self, node):
        place = place_of(node)
        self.identifiers.add(node.name)
        if (node.name in library.SIGNATURES or node.name in library.SPECIAL) and node.name not in self.defined:
            self.names[-1].setdefault(node.name, ("library", node.name))
            return None
        type_ = self.function_type(node.type)
        known = self.names[0].get(node.name)
        if isinstance(known, Routine):
            if known.type != type_:
                raise Refusal(place, f"{node.name} is declared with two types")
            if known.type.any_params and not type_.any_params:
                known.type = type_
            return known
        if known is not None and not (isinstance(known, tuple) and known[0] == "library"):
            raise Refusal(place, f"{node.name} is declared twice")
        made = Routine(node.name, type_, place)
        self.names[0][node.name] = made
        self.routines.append(made)
        return made

    # Functions.

    def function(self, node):
        place = place_of(node)
        if node.param_decls:
            raise Refusal(place, "a function's parameters in the old style")
        routine = self.prototype(node.decl)
        if routine.body is not None:
            raise Refusal(place, f"{node.decl.name} is defined twice")
        routine.place = place
        if routine.type.any_params:
            routine.type = self.function_type(node.decl.type)
        self.routine = routine
        self.names.append({})
        self.tags.append({})
        try:
            self.parameters(node, routine)
            routine.body = self.block(node.body)
        except Refusal as refusal:
            self.refusals.append(refusal)
            routine.body = Block(place, items=[])
        self.names[1:] = []
        self.tags[1:] = []
        self.doubts.clear()
        self.routine = None

    def parameters(self, node, routine):
        place = place_of(node)
        if not isinstance(routine.type.result, T.Void):
            self.usable(routine.type.result, place, f"the result of {routine.name}")
        decls = node.decl.type.args.params if node.decl.type.args else []
        if routine.type.params == []:
            decls = []
        for decl, type_ in zip(decls, routine.type.params):
            if routine.name == "main":
                variable = Variable(decl.name or "", type_, "param", place_of(decl), routine)
            else:
                if decl.name is None:
                    raise Refusal(place_of(decl) or place, "a parameter without a name")
                self.usable(type_, place_of(decl), f"the parameter {decl.name}")
                variable = Variable(decl.name, type_, "param", place_of(decl), routine)
            routine.params.append(variable)
            if decl.name:
                self.names[-1][decl.name] = variable
                self.identifiers.add(decl.name)
        if routine.name == "main" and routine.type.result is not T.INT:
            raise Refusal(place, "main has another result than int")

    def block(self, node):
        items = []
        for item in node.block_items or ():
            items += self.item(item)
        return Block(place_of(node), items=items)

    def scoped(self, work, *words):
        self.names.append({})
        self.tags.append({})
        made = work(*words)
        self.names.pop()
        self.tags.pop()
        return made

    def item(self, node):
        """The statements that an item of a block becomes."""
        if isinstance(node, c_ast.Decl):
            made = self.local(node)
            return [made] if made else []
        if isinstance(node, c_ast.Typedef):
            self.typedef(node)
            return []
        if isinstance(node, c_ast.StaticAssert):
            return []
        return [self.statement(node)]

    def local(self, node):
        place = place_of(node)
        if node.name is None:
            self.type_of(node.type)
            return None
        if isinstance(node.type, c_ast.FuncDecl):
            self.prototype(node)
            return None
        type_ = self.type_of(node.type)
        if isinstance(type_, T.Function):
            raise Refusal(place, "a function's type behind a typedef")
        if "extern" in node.storage:
            found = self.names[0].get(node.name)
            if not isinstance(found, Variable):
                found = Variable(node.name, type_, "global", place)
                found.only_named = True
                self.names[0][node.name] = found
                self.globals.append(found)
            self.names[-1][node.name] = found
            return None
        if node.name in self.names[-1] or len(self.names) == 2 and any(p.name == node.name for p in self.routine.params):
            raise Refusal(place, f"{node.name} is declared twice")
        static = "static" in node.storage
        variable = Variable(node.name, type_, "global" if static else "local", place, self.routine)
        variable.hides = any(node.name in scope for scope in self.names[1:])
        variable.hides_global = isinstance(self.names[0].get(node.name), (Variable, Routine))
        self.names[-1][node.name] = variable
        self.identifiers.add(node.name)
        if node.init is not None:
            variable.type, variable.initial = self.initial(type_, node.init, place)
        self.usable(variable.type, place, node.name)
        if isinstance(variable.type, T.Array) and variable.type.count is None:
            raise Refusal(place, f"the array {node.name} has no length")
        self.no_doubts()
        if static:
            self.statics.append(variable)
            return None
        self.routine.locals.append(variable)
        return Declare(place, variable=variable)

    # Initial values.

    def initial(self, type_, node, place):
        """The type of a variable, its length found where it wasn't said, and its initial value."""
        if isinstance(node, c_ast.CompoundLiteral) and isinstance(type_, T.Struct):
            return type_, self.converted(self.expression(node), type_, place)
        text = self.text_of(node)
        if isinstance(type_, T.Array) and text is not None and T.is_number(type_.of) and type_.of.size == 1:
            if type_.of.held != "char":
                raise Refusal(place, f"a string in an array of {type_.of}")
            if type_.count is None:
                type_ = T.Array(type_.of, len(text.data) + 1)
            return type_, Initial(*self.text_leaves(type_, text, ()))
        if isinstance(node, c_ast.InitList):
            if T.is_scalar(type_):
                if len(node.exprs) != 1:
                    raise Refusal(place, "a list as the value of a number or pointer")
                return self.initial(type_, node.exprs[0], place)
            leaves = []
            count = self.fill(type_, [node.exprs or [], 0], (), leaves, True, place)
            if isinstance(type_, T.Array) and type_.count is None:
                type_ = T.Array(type_.of, count)
            unique = {}
            for path, value in leaves:
                unique.pop(path, None)
                unique[path] = value
            covered = sum(getattr(value, "covers", 1) for value in unique.values())
            return type_, Initial(list(unique.items()), covered == self.leaf_count(type_))
        if isinstance(type_, T.Array):
            raise Refusal(place, "an array's value that is neither a list nor a string")
        return type_, self.converted(self.expression(node), type_, place)

    def leaf_count(self, type_):
        if isinstance(type_, T.Array):
            return type_.count * self.leaf_count(type_.of)
        if isinstance(type_, T.Struct):
            return sum(self.leaf_count(f.type) for f in type_.fields)
        return 1

    def text_of(self, node):
        if isinstance(node, c_ast.InitList) and len(node.exprs) == 1:
            node = node.exprs[0]
        if isinstance(node, c_ast.Constant) and node.type == "string":
            return self.expression(node)
        return None

    def text_leaves(self, type_, text, path):
        """A string as the value of an array of characters: one leaf, which covers as many elements."""
        if len(text.data) > type_.count:
            raise Refusal(text.place, "a string longer than its array")
        text.covers = min(type_.count, len(text.data) + 1)
        return [(path, text)], text.covers == type_.count

    def fill(self, type_, feed, path, leaves, whole, place):
        """Gives the parts of an object their values from a list, as C does. `feed` is [nodes, next]. Answers the
        number of elements of an array."""
        nodes = feed[0]
        at, most = 0, 0
        while feed[1] < len(nodes):
            node = nodes[feed[1]]
            value = node
            inner, rest = None, []
            if isinstance(node, c_ast.NamedInitializer):
                if not whole:
                    break
                at, rest, value = self.designated(type_, node), node.name[1:], node.expr
            limit = type_.count if isinstance(type_, T.Array) else len(type_.fields)
            if limit is not None and at >= limit:
                if whole:
                    raise Refusal(place_of(node) or place, "more values than the object has parts")
                break
            step = ("index", at) if isinstance(type_, T.Array) else ("field", type_.fields[at])
            inner = type_.of if isinstance(type_, T.Array) else type_.fields[at].type
            if rest:
                held = [[c_ast.NamedInitializer(rest, value)], 0]
                self.fill(inner, held, path + (step,), leaves, True, place)
                feed[1] += 1
            else:
                if isinstance(node, c_ast.NamedInitializer):
                    nodes[feed[1]] = value
                self.part(inner, value, feed, path + (step,), leaves, place)
            at += 1
            most = max(most, at)
        return most

    def designated(self, type_, node):
        name = node.name[0]
        if isinstance(type_, T.Array):
            at = constants.folded(self.expression(name)) if not isinstance(name, c_ast.ID) or \
                isinstance(self.find(name.name), tuple) else None
            if at is None or at < 0:
                raise Refusal(place_of(name), "an index of an initial value that is no constant")
            return at
        names = [f.name for f in type_.fields]
        if not isinstance(name, c_ast.ID) or name.name not in names:
            raise Refusal(place_of(name), "an initial value of no field")
        return names.index(name.name)

    def part(self, inner, value, feed, path, leaves, place):
        """One part of an object: a list of its own, a string, a value, or the next values of the same list."""
        place = place_of(value) or place
        text = self.text_of(value)
        if isinstance(value, c_ast.InitList) or text is not None and isinstance(inner, T.Array):
            feed[1] += 1
            _, made = self.initial(inner, value, place)
            if isinstance(made, Initial):
                leaves += [(path + deeper, leaf) for deeper, leaf in made.leaves]
            else:
                leaves.append((path, made))
            return
        if not T.is_object(inner):
            feed[1] += 1
            leaves.append((path, self.converted(self.expression(value), inner, place)))
            return
        if isinstance(inner, T.Struct):
            made = self.expression(value)
            if isinstance(made.type, T.Struct):
                feed[1] += 1
                made.covers = self.leaf_count(inner)
                leaves.append((path, self.converted(made, inner, place)))
                return
        self.fill(inner, feed, path, leaves, False, place)

    # Statements.

    def statement(self, node):
        made = self.one_statement(node)
        self.no_doubts()
        return made

    def inner(self, node):
        """The body of a loop or a branch, a scope of its own."""
        return self.scoped(self.statement, node) if node is not None else None

    def one_statement(self, node):
        place = place_of(node)
        if isinstance(node, c_ast.Compound):
            return self.scoped(self.block, node)
        if isinstance(node, c_ast.If):
            return If(place, test=self.condition(node.cond), then=self.inner(node.iftrue), other=self.inner(node.iffalse))
        if isinstance(node, c_ast.While):
            return While(place, test=self.condition(node.cond), body=self.inner(node.stmt))
        if isinstance(node, c_ast.DoWhile):
            body = self.inner(node.stmt)
            return Do(place, body=body, test=self.condition(node.cond))
        if isinstance(node, c_ast.For):
            return self.scoped(self.for_loop, node)
        if isinstance(node, c_ast.Switch):
            return self.scoped(self.switch, node)
        if isinstance(node, c_ast.Return):
            return self.return_statement(node)
        if isinstance(node, c_ast.Break):
            return Break(place)
        if isinstance(node, c_ast.Continue):
            return Continue(place)
        if isinstance(node, c_ast.EmptyStatement) or isinstance(node, c_ast.Pragma):
            return Block(place, items=[])
        if isinstance(node, (c_ast.Goto,)):
            raise Refusal(place, f"goto {node.name}")
        if isinstance(node, c_ast.Label):
            raise Refusal(place, f"the label {node.name}")
        if isinstance(node, (c_ast.Case, c_ast.Default)):
            raise Refusal(place, "a case label that doesn't stand directly in its switch")
        if isinstance(node, c_ast.DeclList):
            return Block(place, items=[made for made in map(self.local, node.decls) if made])
        if isinstance(node, (c_ast.Decl, c_ast.Typedef)):
            raise Refusal(place, "a declaration without a block")
        return Evaluate(place, expression=self.expression(node))

    def condition(self, node):
        made = self.truth(self.expression(node))
        self.no_doubts()
        return made

    def for_loop(self, node):
        place = place_of(node)
        start = []
        if isinstance(node.init, c_ast.DeclList):
            start = [made for made in map(self.local, node.init.decls) if made]
        elif node.init is not None:
            start = [self.statement(node.init)]
        test = self.condition(node.cond) if node.cond is not None else None
        step = self.expression(node.next) if node.next is not None else None
        self.no_doubts()
        return For(place, start=start, test=test, step=step, body=self.inner(node.stmt))

    def switch(self, node):
        place = place_of(node)
        test = self.decayed(self.expression(node.cond))
        if not T.is_number(test.type):
            raise Refusal(place, "a switch on what is no number")
        if not isinstance(node.stmt, c_ast.Compound):
            raise Refusal(place, "a switch without a block")
        sections, seen = [], set()
        for item in node.stmt.block_items or ():
            if isinstance(item, c_ast.Pragma):
                continue
            if not isinstance(item, (c_ast.Case, c_ast.Default)):
                if not sections:
                    if isinstance(item, c_ast.Decl) and item.init is None:
                        sections.append(([], False, self.item(item)))
                        continue
                    raise Refusal(place_of(item), "a statement before the first case of its switch")
                sections[-1][2].extend(self.item(item))
                continue
            labels, default = [], isinstance(item, c_ast.Default)
            if not default:
                value = constants.folded(self.expression(item.expr))
                if value is None:
                    raise Refusal(place_of(item), "a case that is no constant")
                value = T.promoted(test.type).wrap(value)
                if value in seen:
                    raise Refusal(place_of(item), f"the case {value} stands there twice")
                seen.add(value)
                labels = [value]
            items = []
            for inner in item.stmts or ():
                items += self.item(inner)
            if sections and not sections[-1][2] and (sections[-1][0] or sections[-1][1]):
                sections[-1] = (sections[-1][0] + labels, sections[-1][1] or default, items)
            else:
                sections.append((labels, default, items))
        test = self.switched(test, seen)
        self.no_doubts()
        return Switch(place, test=test, sections=sections)

    def return_statement(self, node):
        place = place_of(node)
        result = self.routine.type.result
        if node.expr is None:
            return Return(place, value=None)
        if isinstance(result, T.Void):
            value = self.expression(node.expr)
            if not isinstance(value.type, T.Void):
                raise Refusal(place, f"a value is returned from {self.routine.name}, which has none")
            return Block(place, items=[Evaluate(place, expression=value), Return(place, value=None)])
        return Return(place, value=self.converted(self.expression(node.expr), result, place))
