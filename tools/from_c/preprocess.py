"""Reads a C file through the system's preprocessor, with headers that declare what of the library is taken."""

import os
import re
import shutil
import subprocess

from .refusal import Refusal, Trouble

HEADERS = os.path.join(os.path.dirname(os.path.abspath(__file__)), "headers")
COMMANDS = (["cc", "-E"], ["gcc", "-E"], ["cpp"])
LITERAL = re.compile(r'''(")((?:[^"\\\n]|\\.)*)"|'(?:[^'\\\n]|\\.)*\'''')
ESCAPE = re.compile(r"\\(?:x([0-9a-fA-F]+)|([0-7]{1,3})|(.))")
LETTERS = {"a": 7, "b": 8, "f": 12, "n": 10, "r": 13, "t": 9, "v": 11,
           "\\": 92, "'": 39, '"': 34, "?": 63, "e": 27}


def escape_value(match):
    """The number that an escape stands for, or None."""
    if match.group(1):
        return int(match.group(1), 16)
    if match.group(2):
        return int(match.group(2), 8)
    return LETTERS.get(match.group(3))


def plain_escapes(text):
    """The text with the escapes of its strings as three octal digits each, so that strings can be joined."""
    def escape(match):
        value = escape_value(match)
        return match.group(0) if value is None or value > 255 else f"\\{value:03o}"

    def literal(match):
        return '"' + ESCAPE.sub(escape, match.group(2)) + '"' if match.group(1) else match.group(0)

    return LITERAL.sub(literal, text)


def preprocess(path, words, unsigned_char):
    """The text of a C file after preprocessing. `words` are -D, -U and -I words for the preprocessor."""
    command = next((c for c in COMMANDS if shutil.which(c[0])), None)
    if command is None:
        raise Trouble("no C preprocessor: neither cc, gcc nor cpp is here")
    char = ["-D__CHAR_UNSIGNED__=1"] if unsigned_char else []
    call = command + ["-std=gnu11", "-nostdinc", "-undef", *char, *words, *regions(path), "-isystem", HEADERS, path]
    environment = {key: value for key, value in os.environ.items() if not key.startswith("LC_")}
    done = subprocess.run(call, stdin=subprocess.DEVNULL, capture_output=True, env={**environment, "LC_ALL": "C"})
    if done.returncode != 0:
        raise told_by_preprocessor(done.stderr.decode(errors="replace"), path)
    try:
        return plain_escapes(done.stdout.decode())
    except UnicodeDecodeError:
        raise Trouble(f"{path} isn't UTF-8") from None


def regions(path):
    """Words that put our regions.h in the place of the one for C compilers, where a program includes that."""
    with open(path, "rb") as file:
        wanted = re.search(rb'^[ \t]*#[ \t]*include[ \t]*"regions\.h"', file.read(), re.M)
    return ["-DREGIONS_H", "-include", os.path.join(HEADERS, "regions.h")] if wanted else []


def told_by_preprocessor(said, path):
    """The refusal that the preprocessor's first error amounts to."""
    for line in said.split("\n"):
        found = re.match(r"(.*?):(\d+):(?:\d+:)? (?:fatal )?error: (.*)", line)
        if found:
            text = found.group(3)
            missing = re.match(r"(\S+): No such file or directory", text)
            if missing:
                text = f"the header {missing.group(1)} isn't there, or isn't supported"
            return Refusal((found.group(1), found.group(2)), text)
    return Refusal((path, 1), "the preprocessor refuses the file")


def parse(text, path):
    """The tree of pycparser."""
    try:
        from pycparser import c_parser
    except ImportError:
        raise Trouble("pycparser isn't here: python3 -m pip install pycparser") from None
    errors = tuple(getattr(c_parser, name) for name in ("ParseError",) if hasattr(c_parser, name))
    if not errors:
        from pycparser.plyparser import ParseError
        errors = (ParseError,)
    try:
        return c_parser.CParser().parse(text, path)
    except errors as error:
        raise told_by_parser(str(error), path) from None


def told_by_parser(said, path):
    """The refusal that an error of the parser amounts to."""
    found = re.match(r"(.*?):(\d+):(?:\d+:)? ?(.*)", said)
    if not found:
        return Refusal((path, 1), f"no C that is understood: {said}")
    text = found.group(3)
    before = re.match(r"before: (.*)", text)
    return Refusal((found.group(1), found.group(2)),
                   f"no C that is understood, at {before.group(1)}" if before else f"no C that is understood: {text}")
