"""The reader of texts: their words, and what they declare."""
import collections
import functools
import os
import re
import stat

MOST_TEXT_BYTES = 1048576


Token = collections.namedtuple("Token", "kind text line at end")
WORDS = re.compile(
    r"""(?P<blank>[ \t\n\v\f\r]+ | //[^\n]* | /\*.*?(?:\*/|\Z) | \#[ \t]*include(?![A-Za-z0-9_])[^\n]*)
      | (?P<name>[A-Za-z_]\w*) | (?P<number>\d\w*)
      | (?P<string>"(?:[^"\\\n]|\\[^\n])*"?) | (?P<character>'(?:[^'\\\n]|\\[^\n])*'?)
      | (?P<mark><<=|>>=|->|\+\+|--|<<|>>|<=|>=|==|!=|&&|\|\||[*/%+\-&^|]=|.)""",
    re.VERBOSE | re.DOTALL | re.ASCII,
)
BASES = ("int", "unsigned", "char", "region", "struct")
ANNOTATIONS = ("sameregion", "parentptr", "traditional")
BUILT_IN = {"newregion": 0, "newsubregion": 1, "deleteregion": 1, "regionof": 1, "putchar": 1, "getchar": 0}
RESERVED = """break char continue deletes do else EOF for if int NULL parentptr ralloc rarrayalloc region return
    sameregion struct traditional unsigned void while""".split()
END = Token("end", "", 0, 0, 0)


def tokens_of(text):
    """Returns the words of a text. What is none is a mark of one byte."""
    tokens, line = [], 1
    for found in WORDS.finditer(text):
        if found.lastgroup != "blank":
            tokens.append(Token(found.lastgroup, found.group(), line, found.start(), found.end()))
        line += found.group().count("\n")
    return tokens


# A type has its base and, for each star, its annotation or nothing.
Type = collections.namedtuple("Type", "base stars")


class Variable(collections.namedtuple("Variable", "name type line")):
    """A local, a parameter, a global or a field."""

    def is_regional(self):
        return self.type.base == "region" or bool(self.type.stars)

    def can_hinder(self):
        """Whether such a cell, which isn't a struct itself, counts as a reference: annotated ones don't."""
        return self.is_regional() and not (self.type.stars and self.type.stars[-1])


# A function or its declaration: the tokens from first to end are its own, and those of its body begin at body. That of
# a declaration is empty, and has no locals.
Function = collections.namedtuple("Function", "name line result deletes parameters locals first body end")


class Declarations:
    """The declarations of a text that has a tree, read off its words. Of any other it may have less."""

    def __init__(self, tokens):
        self.tokens, self.at = tokens, 0
        self.structs, self.globals, self.functions, self.declared = {}, [], [], []
        while self.at < len(tokens):
            self.read_item()

    def text(self, ahead=0):
        return self.token(ahead).text

    def token(self, ahead=0):
        return self.tokens[self.at + ahead] if 0 <= self.at + ahead < len(self.tokens) else END

    def take(self):
        self.at += 1
        return self.token(-1)

    def accept(self, text):
        if self.text() != text:
            return False
        self.at += 1
        return True

    def read_item(self):
        if self.text() == "struct" and self.text(2) == "{":
            self.read_struct()
            return
        first = self.at
        deletes = self.accept("deletes")
        base = self.read_base()
        if not self.is_function():
            self.globals += self.read_declarators(base)
            return
        self.read_function(first, deletes, base)

    def is_function(self):
        ahead = 0
        while self.text(ahead) == "*" or self.text(ahead) in ANNOTATIONS:
            ahead += 1
        return self.text(ahead + 1) == "("

    def read_struct(self):
        name, fields = self.text(1), []
        self.at += 3
        while self.text() and not self.accept("}"):
            fields += self.read_declarators(self.read_base())
        self.accept(";")
        self.structs.setdefault(name, fields)

    def read_base(self):
        base = self.take().text
        if base == "struct":
            return f"struct {self.take().text}"
        if base == "unsigned":
            self.accept("int")
        return base

    def read_stars(self):
        stars = []
        while self.accept("*"):
            stars.append(self.take().text if self.text() in ANNOTATIONS else "")
        return tuple(stars)

    def read_declarators(self, base):
        """Reads the declarators behind a base, with the ; that ends them."""
        found = []
        while True:
            line = self.token().line
            stars = self.read_stars()
            name = self.take().text
            found.append(Variable(name, Type(base, stars), line))
            self.skip_value()
            if not self.accept(","):
                self.accept(";")
                return found

    def skip_value(self):
        """Goes to the next comma or semicolon that isn't inside of something."""
        depth = 0
        while self.text() and (depth > 0 or self.text() not in (",", ";")):
            depth += {"(": 1, "[": 1, ")": -1, "]": -1}.get(self.take().text, 0)

    def read_function(self, first, deletes, base):
        result = Type(base, self.read_stars())
        name = self.take()
        self.accept("(")
        parameters = self.read_parameters()
        deletes = self.accept("deletes") or deletes
        body, is_defined = self.at, self.text() == "{"
        variables = self.read_body() if is_defined else []
        line = self.tokens[first].line
        end = min(self.at, len(self.tokens))
        read = Function(name.text, line, result, deletes, parameters, variables, first, body, end)
        (self.functions if is_defined else self.declared).append(read)
        if not is_defined:
            self.accept(";")

    def read_parameters(self):
        parameters = []
        if self.text() == "void" and self.text(1) == ")":
            self.at += 1
        while self.text() and not self.accept(")"):
            line, base = self.token().line, self.read_base()
            stars = self.read_stars()
            name = self.take().text if self.token().kind == "name" else ""
            parameters.append(Variable(name, Type(base, stars), line))
            self.accept(",")
        return parameters

    def read_body(self):
        """Returns the locals that a body declares, in the order of the text."""
        variables, depth = [], 0
        while self.text():
            if self.text() in BASES and self.is_declaration():
                variables += self.read_declarators(self.read_base())
                continue
            depth += {"{": 1, "}": -1}.get(self.take().text, 0)
            if depth == 0:
                break
        return variables

    def is_declaration(self):
        """Whether a type here begins a declaration: it does where a statement or the head of a for begins."""
        return self.text(-1) in ("{", "}", ";") or (self.text(-1) == "(" and self.text(-2) == "for")

    def function_at(self, line):
        """Returns the function that has a word on this line, or None."""
        for it in self.functions:
            if it.line <= line <= self.tokens[it.end - 1].line:
                return it
        return None

    def calls_on(self, line):
        """Returns where calls begin on a line, as the numbers of their tokens."""
        for function in self.functions:
            for at in range(function.body, function.end - 1):
                it = self.tokens[at]
                is_name = it.line == line and it.kind == "name" and it.text not in RESERVED
                if is_name and self.tokens[at + 1].text == "(":
                    yield at

    def head(self, name):
        """Returns the number of parameters and whether it deletes, of the function of this name, or None."""
        if name in BUILT_IN:
            return BUILT_IN[name], name == "deleteregion"
        for it in self.functions + self.declared:
            if it.name == name:
                return len(it.parameters), it.deletes
        return None


class Text:
    """The text of a file, as it was before rc ran."""

    def __init__(self, data):
        self.data = data

    @functools.cached_property
    def lines(self):
        return self.data.split(b"\n")

    @functools.cached_property
    def tokens(self):
        return tokens_of(self.data.decode("latin-1"))

    @functools.cached_property
    def read(self):
        return Declarations(self.tokens)

    @functools.cached_property
    def firsts(self):
        """The number of the first token of each line that has one."""
        return {it.line: at for at, it in reversed(list(enumerate(self.tokens)))}

    def numbers_on(self, line):
        """Returns the numbers of the tokens of a line."""
        first = end = self.firsts.get(line, 0)
        while end < len(self.tokens) and self.tokens[end].line == line:
            end += 1
        return range(first, end)

    def on(self, line):
        return [self.tokens[at] for at in self.numbers_on(line)]

    def words_on(self, line):
        """Returns the words of a line as HABITS has them, without what stands in strings and characters."""
        words, inside, depth, before = [], [], 0, ""
        for it in self.on(line):
            depth -= it.text in (")", "]")
            words.append({"string": '""', "character": "''"}.get(it.kind, it.text))
            inside += words[-1:] if depth > 0 else []
            depth += it.text in ("(", "[") and before != "for"
            before = it.text
        return " ".join(words) + "\n" + " ".join(inside)

    def shown(self, line):
        """Returns the lines that show a line of the text, or none where the text has no such line."""
        if not 1 <= line <= len(self.lines):
            return []
        text = self.lines[line - 1].decode("utf-8", "backslashreplace").rstrip()
        text = "".join(it if it == "\t" or it.isprintable() else ascii(it)[1:-1] for it in text)
        return [f"{line:5} | {text if len(text) <= 200 else text[:198] + '..'}"]


def data_of(name, most):
    """Returns the bytes of a file, or None where it isn't one that may be read twice, or has more than so many."""
    try:
        if not stat.S_ISREG(os.stat(name).st_mode):
            return None
        with open(name, "rb") as it:
            data = it.read(most + 1)
    except (OSError, ValueError):
        return None
    return data if len(data) <= most else None


def text_of(name):
    """Returns the text of a file, or None where it can't be read twice, or is too long for one."""
    data = data_of(name, MOST_TEXT_BYTES)
    return None if data is None else Text(data)


def are_choices(word):
    return re.fullmatch("[0-9]{1,1000}", word) is not None


def task_text_of(name, choices):
    """Returns the text by which the tasks of a file are run, which has three lines behind the file's, or None."""
    data = data_of(name, MOST_TEXT_BYTES)
    if data is None or not are_choices(choices):
        return None
    calls = " ".join(f"if (c == '{it}') task_{it}();" for it in sorted(set(choices)))
    taking = f"if (rc_at < {len(choices)}) {{ c = s[rc_at]; rc_at++; {calls} }}"
    lines = [
        "",
        "unsigned rc_at;",
        f'void yield(void) deletes {{ char *s = "{choices}"; char c; {taking} }}',
        f"int main(void) deletes {{ start(); while (rc_at < {len(choices)}) yield(); return 0; }}",
        "",
    ]
    return Text(data + "\n".join(lines).encode())
