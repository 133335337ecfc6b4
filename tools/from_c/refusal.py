"""What from-c can't take: a place in a file, and what is missing."""


class Refusal(Exception):
    """A construct that isn't taken. `place` is (file, line), or None where the tree has none; `text` says what is
    missing."""

    def __init__(self, place, text):
        super().__init__(text)
        self.place = place
        self.text = text

    def told(self, file):
        """The line for standard error."""
        where, line = self.place or (file, 1)
        return f"{where}:{line}: {self.text}"


class Trouble(Exception):
    """What stops from-c before it looks at the program: no preprocessor, no file, wrong words."""


def place_of(node):
    """The (file, line) of a node of pycparser, looked for in its children where it has none itself."""
    if getattr(node, "coord", None) is not None:
        return node.coord.file, node.coord.line
    if node is not None:
        for _, child in node.children():
            found = place_of(child)
            if found is not None:
                return found
    return None
