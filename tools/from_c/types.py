"""The types of C, their sizes as gcc has them on x86-64, and the types of RC that stand for them."""


class Int:
    """A type of whole numbers. `rank` orders types by C's rules of conversion, `held` is RC's type for it."""

    def __init__(self, name, size, signed, rank, held):
        self.name, self.size, self.signed, self.rank, self.held = name, size, signed, rank, held
        bits = 1 if name == "_Bool" else 8 * size
        self.low = -(1 << (bits - 1)) if signed else 0
        self.high = (1 << (bits - 1)) - 1 if signed else (1 << bits) - 1

    def __str__(self):
        return self.name

    def wide(self):
        """Whether it has 64 bits, more than any number of RC."""
        return self.size == 8

    def same_as_held(self):
        """Whether RC's own conversion to the type that stands for it is C's conversion to it."""
        return self.name in ("char", "unsigned char", "int", "unsigned")

    def wrap(self, value):
        """A number converted to this type."""
        if self.name == "_Bool":
            return int(value != 0)
        value &= self.high if not self.signed else (1 << (8 * self.size)) - 1
        return value - (1 << (8 * self.size)) if value > self.high else value


BOOL = Int("_Bool", 1, False, 0, "int")
CHAR = Int("char", 1, True, 1, "char")
SIGNED_CHAR = Int("signed char", 1, True, 1, "int")
UNSIGNED_CHAR = Int("unsigned char", 1, False, 1, "char")
SHORT = Int("short", 2, True, 2, "int")
UNSIGNED_SHORT = Int("unsigned short", 2, False, 2, "int")
INT = Int("int", 4, True, 3, "int")
UNSIGNED = Int("unsigned", 4, False, 3, "unsigned")
LONG = Int("long", 8, True, 4, "int")
UNSIGNED_LONG = Int("unsigned long", 8, False, 4, "unsigned")
LONG_LONG = Int("long long", 8, True, 5, "int")
UNSIGNED_LONG_LONG = Int("unsigned long long", 8, False, 5, "unsigned")


class Void:
    def __str__(self):
        return "void"


class Region:
    def __str__(self):
        return "region"


VOID = Void()
REGION = Region()


class Pointer:
    def __init__(self, to):
        self.to = to

    def __eq__(self, other):
        return isinstance(other, Pointer) and self.to == other.to

    def __hash__(self):
        return hash(("pointer", self.to))

    def __str__(self):
        return f"{self.to} *"


class Array:
    """An array of `count` elements, None where the length isn't said."""

    def __init__(self, of, count):
        self.of, self.count = of, count

    def __eq__(self, other):
        return isinstance(other, Array) and self.of == other.of and self.count == other.count

    def __hash__(self):
        return hash(("array", self.of, self.count))

    def __str__(self):
        return f"{self.of} [{'' if self.count is None else self.count}]"


class Field:
    """A field of a struct. `boxed`: its address is needed, so RC has a pointer to an object in its place."""

    def __init__(self, name, type_):
        self.name, self.type, self.boxed = name, type_, False


class Struct:
    """A struct. `fields` is None until it is defined."""

    def __init__(self, tag, place):
        self.tag, self.place, self.fields, self.rc_tag = tag, place, None, None

    def field(self, name):
        for field in self.fields or ():
            if field.name == name:
                return field
        return None

    def __str__(self):
        return f"struct {self.tag or '{..}'}"


class Function:
    """The type of a function: its result, and the types of its parameters."""

    def __init__(self, result, params, any_params=False):
        self.result, self.params, self.any_params = result, params, any_params

    def __eq__(self, other):
        return isinstance(other, Function) and self.result == other.result and (
            self.any_params or other.any_params or self.params == other.params)

    def __hash__(self):
        return hash(("function", self.result))

    def __str__(self):
        return "function"


def is_number(t):
    return isinstance(t, Int)


def is_scalar(t):
    return isinstance(t, (Int, Pointer, Region))


def is_object(t):
    """Whether a value of the type can only lie in memory in RC."""
    return isinstance(t, (Array, Struct))


def alignment(t):
    if isinstance(t, Int):
        return t.size
    if isinstance(t, Array):
        return alignment(t.of)
    if isinstance(t, Struct):
        return max([alignment(f.type) for f in t.fields], default=1)
    return 8


def size_of(t):
    """The size of a type in bytes, as sizeof gives it in C."""
    if isinstance(t, Int):
        return t.size
    if isinstance(t, Array):
        return t.count * size_of(t.of)
    if isinstance(t, Struct):
        end = 0
        for f in t.fields:
            step = alignment(f.type)
            end = (end + step - 1) // step * step + size_of(f.type)
        step = alignment(t)
        return (end + step - 1) // step * step
    return 8


def flat(t):
    """The element type and the length of an array when arrays of arrays are laid out one after the other."""
    count = 1
    while isinstance(t, Array):
        count *= t.count if t.count is not None else 1
        t = t.of
    return t, count


def rc_base(t):
    """RC's words for a type, without its stars, and the number of these."""
    if isinstance(t, Int):
        return t.held, 0
    if isinstance(t, Array):
        base, stars = rc_base(flat(t)[0])
        return base, stars
    if isinstance(t, Pointer):
        to = flat(t.to)[0] if isinstance(t.to, Array) else t.to
        base, stars = rc_base(to)
        return base, stars + 1
    if isinstance(t, Struct):
        return f"struct {t.rc_tag}", 0
    return str(t), 0


def rc_type(t):
    base, stars = rc_base(t)
    return base + (" " + "*" * stars if stars else "")


def declared(t, name):
    """A declarator of RC: `struct node *next`, `int cells[12]`."""
    base, stars = rc_base(t)
    length = f"[{flat(t)[1]}]" if isinstance(t, Array) else ""
    return f"{base} {'*' * stars}{name}{length}"


def cells(t):
    """The number of cells of a type in RC."""
    if isinstance(t, Array):
        return flat(t)[1] * cells(flat(t)[0])
    if isinstance(t, Struct):
        return sum(1 if f.boxed else cells(f.type) for f in t.fields)
    return 1


def has_boxes(t):
    """Whether an object of the type has parts that lie in objects of their own."""
    if isinstance(t, Array):
        return has_boxes(t.of)
    if isinstance(t, Struct):
        return any(f.boxed or has_boxes(f.type) for f in t.fields)
    return False


def promoted(t):
    """The type that a number has in arithmetic."""
    return INT if t.rank < INT.rank else t


def common(a, b):
    """The type in which two numbers meet in arithmetic."""
    a, b = promoted(a), promoted(b)
    if a.signed == b.signed:
        return a if a.rank >= b.rank else b
    plain, signless = (a, b) if a.signed else (b, a)
    if signless.rank >= plain.rank:
        return signless
    if plain.size > signless.size:
        return plain
    return {LONG: UNSIGNED_LONG, LONG_LONG: UNSIGNED_LONG_LONG}[plain]
