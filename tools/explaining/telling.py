"""What is told of each line of rc, with what the program's text shows of it."""
import copy
import os

from explaining.hints import ENDS, IMAGE_REFUSALS, LINK_REFUSALS, REFUSALS, TRAPS
from explaining.images import image_of
from explaining.messages import noted
from explaining.programs import Program
from explaining.references import References
from explaining.refusals import DETAILS, apart, habits
from explaining.running import Scratch
from explaining.texts import Text, data_of

# What each command works on, which stands first behind it, and all its words.
OPTIONS = "[--turns N] [--regions N] [--blocks N]"
COMMANDS = {
    "run": ("text", f"FILE {OPTIONS}"),
    "slow": ("text", f"FILE {OPTIONS}"),
    "compile": ("text", "FILE IMAGE"),
    "checks": ("text", "FILE"),
    "exec": ("image", f"IMAGE {OPTIONS}"),
    "list": ("image", "IMAGE"),
    "upgrade": ("image", "IMAGE IMAGE"),
    "seal": ("image", "IMAGE IMAGE"),
    "heap": ("script", "FILE [--regions N] [--blocks N]"),
    "soak": ("number", "N"),
    "tasks": ("text", f"FILE CHOICES {OPTIONS}"),
    "link": ("files", "IMAGE FILE .."),
}
MOST_IMAGE_BYTES = 268435456
# The limits of a run without options.
LIMITS = {"--turns": 100000000, "--regions": 4294967295, "--blocks": 4294967295}


def why_unreadable(name):
    """Says why a file can't be read, or returns None where it can."""
    if os.path.isdir(name):
        return f"{name} is a folder"
    try:
        os.close(os.open(name, os.O_RDONLY | os.O_NONBLOCK))
        return None
    except OSError as why:
        return f"{name}: {why.strerror}"


def why_not_stored(name):
    """Says why a file can't be stored, as far as that can be seen without trying."""
    folder = os.path.dirname(name) or "."
    if os.path.isdir(name):
        return f"{name} is a folder"
    if not os.path.isdir(folder):
        return f"{name}: there is no folder {folder}"
    if not os.access(name if os.path.exists(name) else folder, os.W_OK):
        return f"{name} can't be written there"
    return f"{name} couldn't be stored: is the disk full?"


class Teller:
    """Tells what rc said of a command."""

    def __init__(self, rc, words, text):
        self.rc, self.words, self.text, self.files = rc, words, text, None
        self.name = words[1] if len(words) > 1 else "rc"
        self.subject = COMMANDS[words[0]][0]
        if self.subject == "files":
            self.text, self.files = None, text

    def place(self, line):
        if self.subject == "text":
            return f"{self.name}:{line}"
        return f"{self.name}: line {line} of {'one of its files' if self.files else 'its text'}"

    def of_file(self, number):
        """Returns the teller of one of several files."""
        teller = copy.copy(self)
        teller.name, teller.text, teller.subject = self.words[number + 1], self.files[number - 1], "text"
        return teller

    def told(self, message):
        """Returns the lines that tell a message."""
        if message.name == "usage":
            return self.usage()
        if message.file is not None and self.subject == "files":
            return self.of_file(message.file).told(message)
        lines = [f"{self.name if message.line is None else self.place(message.line)}: {self.head(message)}"]
        if message.line is not None and self.text:
            lines += self.text.shown(message.line)
            if self.is_behind(message.line):
                lines.append(noted("this line stands behind the file, where rc tasks puts it: it runs the tasks"))
        return lines + list(self.causes(message))

    def is_behind(self, line):
        """Whether a line is one of the three behind a file of tasks."""
        return self.words[0] == "tasks" and line + 3 > self.text.data.count(b"\n")

    def head(self, message):
        place = ""
        if message.offset is not None:
            place = f" at byte {message.offset}"
        elif message.function is not None:
            place = f" in function {message.function}"
            if message.instruction is not None:
                place += f" at instruction {message.instruction}"
        return f"{message.what}: {message.name}{place}" if message.what else message.name

    def usage(self):
        options = COMMANDS[self.words[0]][1]
        lines = [f"usage: rc {self.words[0]} {options}"]
        if "CHOICES" in options:
            lines.append(noted("CHOICES are 1 to 1,000 decimal digits, each the number of a task"))
        if self.files is not None:
            lines.append(noted("there are from 1 to 16 files"))
        if "[" in options:
            last = "the choices" if "CHOICES" in options else "the file"
            lines.append(noted(f"options stand behind {last}, in this order, each at most once"))
            lines.append(noted("N is 0, or decimal digits without a leading 0"))
        return lines

    def causes(self, message):
        """Returns the lines that stand below: what it means, what the line shows of it, and what to do."""
        if message.what == "trap":
            return self.of_trap(message)
        if message.what == "refused":
            return map(noted, self.of_refusal(message))
        if message.what == "link refused":
            return map(noted, self.of_link_refusal(message))
        return map(noted, self.of_end(message))

    def of_trap(self, message):
        yield noted(TRAPS[message.name])
        if message.name == "full":
            regions, blocks = self.limit("--regions"), self.limit("--blocks")
            yield noted(f"the limits were {regions} regions in the run, and {blocks} objects in each of them")
            yield noted("raise --regions or --blocks, or delete regions that are not needed")
        if message.name == "reference":
            yield from self.references(message.line)

    def references(self, line):
        program = self.program()
        if program is None:
            yield noted("what it is can't be told, since the text can't be read again")
            return
        yield from References(program, self.text, self.place).told(line)
        if self.text is None:
            yield noted("an image has no names: its text, run by rc run, is told with them")

    def program(self):
        """Returns the program that ran, by the text as it was before, or by the image."""
        try:
            if self.subject == "image":
                return Program(image_of(data_of(self.name, MOST_IMAGE_BYTES) or b""))
            with Scratch(self.rc) as scratch:
                image = scratch.image(self.text.data) if self.text else None
        except (OSError, IndexError):
            return None
        return Program(image, self.text) if image else None

    def of_refusal(self, message):
        if message.number in IMAGE_REFUSALS:
            yield from self.of_image_refusal(message)
            return
        yield REFUSALS[message.number][1]
        if self.text and message.line is not None:
            yield from DETAILS.get(message.number, lambda text, line: [])(self.text_by_itself(), message.line)
            yield from habits(message.number, self.text.words_on(message.line))

    def text_by_itself(self):
        """Returns the text, of which what is declared is defined in another file where there are several."""
        if not self.files:
            return self.text
        text = Text(self.text.data)
        text.read.functions, text.read.declared = text.read.functions + text.read.declared, []
        return text

    def of_link_refusal(self, message):
        yield LINK_REFUSALS[message.number][1]
        if message.file is not None and all(self.files):
            files = list(zip(self.words[2:], self.files))
            yield from apart(message.number, files, message.file - 1, message.line)

    def of_image_refusal(self, message):
        yield IMAGE_REFUSALS[message.number][1]
        program = self.program() if message.instruction is not None else None
        if program and message.instruction < len(program.code(message.function)):
            it = program.code(message.function)[message.instruction]
            numbers = it.operands + ([len(it.pins)] + it.pins if it.name in ("DELETE", "CALL") else [])
            yield f"it is {' '.join([it.name, *map(str, numbers)])}, made of line {it.line} of its text"

    def of_end(self, message):
        yield ENDS[message.name]
        if message.name == "spent":
            yield f"it had {self.limit('--turns')}"
        if message.name == "file fault":
            yield from self.faults()

    def faults(self):
        """Says which file it may be that failed, and why."""
        reads, stores = self.words[1:2], self.words[2:3]
        if self.files is not None:
            reads, stores = self.words[2:], self.words[1:2]
        why = next(filter(None, map(why_unreadable, reads)), None)
        if why:
            yield why
        elif self.words[0] in ("compile", "upgrade", "link", "seal"):
            yield from map(why_not_stored, stores)

    def limit(self, option):
        """Returns a limit of the run, as its words gave it or else as it is."""
        first = 3 if self.words[0] == "tasks" else 2
        given = dict(zip(self.words[first::2], self.words[first + 1 :: 2]))
        return f"{int(given.get(option, LIMITS[option])):,}"
