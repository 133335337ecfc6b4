"""What rc writes: its lines on standard error, and reports of checks."""
import collections
import re

from explaining.hints import ENDS, IMAGE_REFUSALS, LINK_REFUSALS, REFUSALS, TRAPS

Message = collections.namedtuple("Message", "what name line number offset function instruction file", defaults=[None])
FORMS = [
    re.compile(form)
    for form in (
        r"rc: line (?P<line>\d+): (?P<what>trap) (?P<name>[a-z]+)",
        r"rc: (?:line (?P<line>\d+): )?(?P<what>refused) (?P<number>\d+) (?P<name>[a-z-]+)",
        r"rc: file (?P<file>\d+): (?:line (?P<line>\d+): )?(?P<what>refused) (?P<number>\d+) (?P<name>[a-z-]+)",
        r"rc: (?:file (?P<file>\d+): line (?P<line>\d+): )?(?P<what>link refused) (?P<number>\d+) (?P<name>[a-z]+)",
        r"rc: image (?P<what>refused) (?P<number>\d+) (?P<name>[a-z]+)(?: at (?P<offset>\d+))?",
        r"rc: image (?P<what>refused) (?P<number>\d+) (?P<name>[a-z]+) in (?P<function>\d+)(?: at (?P<instruction>\d+))?",
        r"rc: line (?P<line>\d+): (?P<name>stale image)",
        r"rc: (?P<name>spent|file fault|read fault|write fault|no memory)",
        r"(?P<name>usage): rc run FILE .*",
    )
]


def message_of(line):
    """Returns what a line of rc says, or None where it isn't one of rc's own."""
    for form in FORMS:
        found = form.fullmatch(line.decode("latin-1"))
        if found:
            parts = {key: int(text) if text and text.isdigit() else text for key, text in found.groupdict().items()}
            message = Message(**{key: parts.get(key) for key in Message._fields})
            return message if is_known(message) else None
    return None


def is_known(message):
    if message.what == "trap":
        return message.name in TRAPS
    if message.what == "refused":
        return {**REFUSALS, **IMAGE_REFUSALS}.get(message.number, ("",))[0] == message.name
    if message.what == "link refused":
        return LINK_REFUSALS.get(message.number, ("",))[0] == message.name
    return message.name in ENDS


# A check: its line, its annotation, and whether it is kept.
Row = collections.namedtuple("Row", "line note kept")
Report = collections.namedtuple("Report", "rows total")


def report_of(output):
    """Returns what rc checks wrote."""
    *lines, total = output.decode("latin-1").splitlines()
    rows = [line.split() for line in lines]
    return Report([Row(int(line), note, how == "kept") for line, note, how in rows], total)


def noted(text):
    """Returns a line that stands below what is told."""
    return f"      = {text}"


def listed(names, most=8):
    names = list(names)
    return ", ".join(names[:most]) + (f" and {len(names) - most} more" if len(names) > most else "")
