"""The command line of from-c."""

import os
import sys

from .preprocess import parse, preprocess
from .refusal import Refusal, Trouble

SWITCHES = {"--unsigned-char": "unsigned_char", "--int-is-enough": "int_is_enough", "--left-to-right": "left_to_right"}


class Options:
    """What the command line says. `words` go to the preprocessor."""

    def __init__(self):
        self.file = self.output = self.region = None
        self.unsigned_char = self.int_is_enough = self.left_to_right = False
        self.words = []


def read_options(words):
    options, rest = Options(), list(words)

    def argument(word):
        if not rest:
            raise Trouble(f"{word} wants a word after it")
        return rest.pop(0)

    while rest:
        word = rest.pop(0)
        if word in SWITCHES:
            setattr(options, SWITCHES[word], True)
        elif word == "-o":
            options.output = argument(word)
        elif word == "--region":
            options.region = argument(word)
            if not options.region.isidentifier():
                raise Trouble(f"{options.region} is no name of a region")
        elif word in ("-D", "-U", "-I"):
            options.words.append(word + argument(word))
        elif word[:2] in ("-D", "-U", "-I"):
            options.words.append(word)
        elif word.startswith("-") and word != "-":
            raise Trouble(f"the option {word} isn't known")
        elif options.file is not None:
            raise Trouble("more than one file")
        else:
            options.file = word
    if options.file is None:
        raise Trouble("no file is named: tools/from-c FILE.c [-o OUT.c] [OPTION..]")
    return options


def translate(options):
    """The text of RC, and notes [(place, text)]. Raises the refusals."""
    text = preprocess(options.file, options.words, options.unsigned_char)
    tree = parse(text, options.file)
    from . import types
    types.CHAR.signed = not options.unsigned_char
    types.CHAR.low, types.CHAR.high = (0, 255) if options.unsigned_char else (-128, 127)
    from .check import Checker
    from .program import Program
    checker = Checker(options)
    checker.file(tree)
    program = Program(checker, options)
    try:
        return program.text(), checker.notes
    except Refusal as refusal:
        raise Refused(program.refusals or [refusal]) from None


class Refused(Exception):
    """All refusals of a program."""

    def __init__(self, refusals):
        super().__init__()
        known = [r for r in refusals if r.text != "no main"] or refusals
        self.refusals = sorted(known, key=lambda r: int(r.place[1]) if r.place else 0)


def main(words, usage, output=None, errors=None):
    """Does what the words of a command line say, and answers its status."""
    output, errors = output or sys.stdout, errors or sys.stderr
    if words in (["--help"], ["-h"]):
        print(usage.strip(), file=output)
        return 0
    try:
        options = read_options(words)
        if not os.path.isfile(options.file):
            raise Trouble(f"there is no file {options.file}")
        if options.output and os.path.exists(options.output) and os.path.samefile(options.output, options.file):
            raise Trouble(f"{options.output} is the program itself")
        text, notes = translate(options)
        for place, note in notes:
            print(f"{place[0]}:{place[1]}: note: {note}", file=errors)
        if options.output is None:
            output.write(text)
        else:
            with open(options.output, "w") as file:
                file.write(text)
        return 0
    except Refusal as refusal:
        print(refusal.told(options.file), file=errors)
        return 1
    except Refused as refused:
        for refusal in refused.refusals:
            print(refusal.told(options.file), file=errors)
        return 1
    except (Trouble, OSError) as trouble:
        print(f"from-c: {trouble}", file=errors)
        return 2
    except RecursionError:
        print(f"{options.file}:1: an expression or statement that is too deep", file=errors)
        return 1
    except Exception as error:  # An error of from-c itself is told in a line as well.
        print(f"from-c: an error of its own, {type(error).__name__}: {error}", file=errors)
        return 2
