"""What the numbers of an image are in the text that it was made of."""
from explaining.images import PLAIN
from explaining.texts import Type


def pointed(type_):
    return Type(type_.base, type_.stars[:-1])


def has_kind(type_, kind, types):
    """Whether a variable of this type can be one of this kind. Each type keeps the number that it is first met with."""
    if type_.stars:
        return kind[0] == PLAIN and types.setdefault(pointed(type_), kind[1]) == kind[1]
    return kind[0] < PLAIN and ("int", "unsigned", "char", "region")[kind[0]] == type_.base


def misfit(read, image, types=None):
    """Returns where the declarations of a text don't fit its image, or None where they do. Types get their numbers."""
    if len(read.functions) != len(image.functions):
        return f"{len(read.functions)} functions, and {len(image.functions)} in the image"
    types = {} if types is None else types
    for function, code in zip(read.functions, image.functions):
        variables = function.parameters + function.locals
        if len(function.parameters) != code.parameters or len(variables) > len(code.locals):
            return f"the number of locals of {function.name}"
        for variable, kind in zip(variables, code.locals):
            if not has_kind(variable.type, kind, types):
                return f"{variable.name} of {function.name}"
    return None


class Program:
    """An image, with the names of its text where there is one that it fits."""

    def __init__(self, image, text=None):
        self.image = image
        fits = text is not None and misfit(text.read, image) is None
        self.functions = text.read.functions if fits else [None] * len(image.functions)

    def code(self, function):
        return self.image.functions[function].code

    def function(self, number):
        read = self.functions[number]
        return read.name if read else f"function {number}"

    def local(self, function, number):
        """Returns the name of a local, with its line where others have it too. A hidden one has its number alone."""
        read = self.functions[function]
        variables = read.parameters + read.locals if read else []
        if number >= len(variables):
            return f"local {number}"
        found = variables[number]
        same = [it.line for it in variables if it.name == found.name]
        if len(same) == 1:
            return found.name
        return f"{found.name} of line {found.line}" if same.count(found.line) == 1 else f"{found.name} (local {number})"
