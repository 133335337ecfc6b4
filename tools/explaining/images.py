"""The reader of images."""
import collections


# The instructions by their numbers: the name, how many operands it has (pins are a count and so many locals), how
# many values it takes and how many it gives. A path and a call say the latter by themselves.
INSTRUCTIONS = [
    word.split(":")
    for word in """INT:1:0:1 UNS:1:0:1 NULLR:0:0:1 NULLP:1:0:1 GLOBAL:1:0:1 GET:1:0:1 SET:1:1:0
    ADD:1:2:1 SUB:1:2:1 MUL:1:2:1 DIV:1:2:1 REM:1:2:1 AND:1:2:1 OR:1:2:1 XOR:1:2:1 SHL:1:2:1 SHR:1:2:1
    NEG:1:1:1 NOT:1:1:1 EQ:1:2:1 LT:1:2:1 LE:1:2:1 EQR:0:2:1 EQP:1:2:1 ZERO:0:1:1 NILR:0:1:1 NILP:1:1:1
    TOI:0:1:1 TOU:0:1:1 TOC:0:1:1 MOVE:3:2:1 LOAD:1:path:1 STORE:2:path:0
    NEWREGION:0:0:1 NEWSUB:0:1:1 REGIONOF:1:1:1 RALLOC:1:1:1 RARRAY:1:2:1 DELETE:pins:1:0
    CALL:1pins:arguments:result RET:0:all:0 PUT:0:1:1 GETC:0:0:1 JUMP:1:0:0 JZ:1:1:0 BACK:1:0:0 POP:0:1:0""".split()
]
EFFECTS = {name: (takes, gives) for name, _, takes, gives in INSTRUCTIONS}
Instruction = collections.namedtuple("Instruction", "name operands pins line")
# A kind or a cell is a tag and, for a pointer, the number of the type that it points to, else None.
Code = collections.namedtuple("Code", "parameters locals result code")
Path = collections.namedtuple("Path", "type shift offset indices")
Image = collections.namedtuple("Image", "types globals paths functions main")
REGION, PLAIN, NO_RESULT = 3, 4, 5
NOTES = {5: "sameregion", 6: "parentptr", 7: "traditional"}


class ImageReader:
    """Reads the fields of an image that rc took. Of any other it may answer anything, or IndexError or ValueError."""

    def __init__(self, data):
        self.data, self.at = data, 4

    def number(self):
        value, shift = 0, 0
        while True:
            byte = self.data[self.at]
            self.at += 1
            value |= (byte & 127) << shift
            shift += 7
            if byte < 128:
                return value

    def many(self, read):
        return [read() for _ in range(self.number())]

    def kind(self):
        tag = self.number()
        return tag, self.number() if tag == PLAIN else None

    def cell(self):
        tag = self.number()
        return tag, self.number() if tag >= PLAIN else None

    def global_(self):
        type_, elements, first = self.number(), self.number(), self.number()
        if first == 1:
            self.number()
        elif first == 2:
            self.at += elements
        return type_

    def path(self):
        head = self.number(), self.number(), self.number()
        return Path(*head, self.many(lambda: (self.number(), self.number(), self.number())))

    def instruction(self):
        name, operands = INSTRUCTIONS[self.number()][:2]
        own = [self.number() for _ in range(int(operands[0]) if operands[0].isdigit() else 0)]
        return Instruction(name, own, self.many(self.number) if operands.endswith("pins") else [], 0)

    def lines(self, version, count):
        if version == 1:
            return [self.number() for _ in range(count)]
        return [line for _ in range(self.number()) for line in self.run_of_lines()]

    def run_of_lines(self):
        length, line = self.number(), self.number()
        return [line] * length

    def function(self, version):
        parameters, kinds, result = self.number(), self.many(self.kind), self.kind()
        code = self.many(self.instruction)
        lines = self.lines(version, len(code))
        return Code(parameters, kinds, result, [it._replace(line=line) for it, line in zip(code, lines)])

    def image(self):
        version = self.number()
        types = self.many(lambda: self.many(self.cell))
        globals_, paths = self.many(self.global_), self.many(self.path)
        return Image(types, globals_, paths, self.many(lambda: self.function(version)), self.number())


def image_of(data):
    return ImageReader(data).image()
