"""Running rc: its streams, the signals that end it, and questions to it besides."""
import functools
import os
import resource
import shutil
import signal
import subprocess
import tempfile

from explaining.images import image_of
from explaining.messages import message_of, report_of

# The signals that end the script, and the programs that it has started.
ENDING = (signal.SIGINT, signal.SIGTERM, signal.SIGHUP, signal.SIGQUIT)
RUNNING = []


class Interrupted(BaseException):
    """A signal that ends the script has come."""


def interrupt(number, _frame):
    for it in ENDING:
        signal.signal(it, signal.SIG_IGN)
    raise Interrupted(number)


def catch_signals():
    for it in ENDING:
        if signal.getsignal(it) != signal.SIG_IGN:
            signal.signal(it, interrupt)


class NotStarted(Exception):
    """A program can't be started."""


class OutputFailed(Exception):
    """Standard output can't be written."""


def start(command, **streams):
    """Starts a program, and holds signals back until it is among those that run."""
    held = signal.pthread_sigmask(signal.SIG_BLOCK, ENDING)
    try:
        let_through = functools.partial(signal.pthread_sigmask, signal.SIG_SETMASK, held)
        RUNNING.append(subprocess.Popen(command, preexec_fn=let_through, **streams))
        return RUNNING[-1]
    except OSError as why:
        raise NotStarted(f"{command[0]} can't be started: {why.strerror}") from why
    finally:
        signal.pthread_sigmask(signal.SIG_SETMASK, held)


def ended(ran):
    """Waits for a program that was started, and returns its status: below 0 where a signal ended it."""
    status = ran.wait()
    RUNNING.remove(ran)
    return status


def as_rc(ran):
    """Waits for rc, and returns its status. Where a signal ended it, this script ends so too."""
    status = ended(ran)
    if status < 0:
        end_by(-status)
    return status


def run_rc(rc, words, errors, output=None):
    """Runs rc with the caller's streams, or with its output into a file. Returns its status and what it said."""
    ran = start([rc, *words], stdout=output, stderr=subprocess.PIPE)
    messages = own_messages(ran.stderr, errors)
    return as_rc(ran), messages


def run_untold(rc, words):
    """Runs rc where standard error is closed, so that nothing can be told. Returns its status."""
    return as_rc(start([rc, *words]))


def stop_running(number):
    """Ends what runs by the signal that has come. One from the keyboard should have reached it already."""
    for it in RUNNING:
        from_keyboard = number in (signal.SIGINT, signal.SIGQUIT)
        for seconds, by in ((1 if from_keyboard else 0, number), (10, signal.SIGKILL)):
            try:
                it.wait(seconds)
            except subprocess.TimeoutExpired:
                it.send_signal(by)
        it.wait()


def end_by(number):
    """Ends the script by a signal, as rc would or did end. The memory isn't kept, as it is not rc's."""
    resource.setrlimit(resource.RLIMIT_CORE, (0, resource.getrlimit(resource.RLIMIT_CORE)[1]))
    if number != signal.SIGKILL:
        signal.signal(number, signal.SIG_DFL)
    os.kill(os.getpid(), number)
    os._exit(128 + number)


def reserve_streams():
    """Takes the numbers of closed standard streams, so that no file gets one, and returns them. rc still finds them
    closed, and writing to one still fails."""
    closed = [it for it in (0, 1, 2) if not is_open(it)]
    for _ in closed:
        os.open(os.devnull, os.O_RDONLY)
    return closed


def is_open(stream):
    try:
        os.fstat(stream)
    except OSError:
        return False
    return True


def find_rc():
    """Returns rc's file, or None and why there is none."""
    named = os.environ.get("RC")
    if named:
        return shutil.which(named), f"$RC is {named}, which is no program that can be executed"
    beside = os.path.normpath(os.path.join(os.path.realpath(__file__), "../../../rc"))
    if os.path.isfile(beside) and os.access(beside, os.X_OK):
        return beside, ""
    return shutil.which("rc"), "there is no rc beside this script's folder, nor in PATH: set RC to it"


class Scratch:
    """Asks rc of texts by themselves, in a folder of its own, which goes with the block."""

    def __init__(self, rc):
        self.rc = rc

    def __enter__(self):
        self.folder = tempfile.TemporaryDirectory(prefix="explain-")
        return self

    def __exit__(self, *_why):
        """Takes the folder away, and before it what a signal has left running in it."""
        for it in RUNNING:
            it.kill()
            it.wait()
        self.folder.cleanup()

    def file(self, name):
        return os.path.join(self.folder.name, name)

    def ask(self, verb, data, *words):
        """Returns the output of a command of rc on a text, or None where it fails."""
        streams = {"stdin": subprocess.DEVNULL, "stdout": subprocess.PIPE, "stderr": subprocess.DEVNULL}
        try:
            with open(self.file("text.c"), "wb") as it:
                it.write(data)
            ran = start([self.rc, verb, self.file("text.c"), *words], **streams)
        except (OSError, NotStarted):
            return None
        output = ran.communicate()[0]
        return output if ended(ran) == 0 else None

    def image(self, data):
        """Returns the image of a text, or None."""
        if self.ask("compile", data, self.file("image")) is None:
            return None
        with open(self.file("image"), "rb") as it:
            return image_of(it.read())

    def checks(self, data):
        """Returns the report of a text's checks, or None."""
        output = self.ask("checks", data)
        return None if output is None else report_of(output)


class ErrorStream:
    """Standard error. What can't be written there is remembered, as rc then ends with a status of its own."""

    def __init__(self):
        self.failed, self.is_inside = False, False

    def write(self, data):
        """Writes bytes, and keeps whether they end inside of a line."""
        try:
            write_all(2, data)
        except OSError:
            self.failed = True
        self.is_inside = not data.endswith(b"\n") if data else self.is_inside

    def tell(self, lines):
        """Writes lines, from the beginning of one on."""
        self.write(b"\n" * self.is_inside + encoded(lines))


def write_all(stream, data):
    while data:
        data = data[os.write(stream, data) :]


def write_output(lines):
    try:
        write_all(1, encoded(lines))
    except OSError as why:
        raise OutputFailed from why


def encoded(lines):
    return "".join(f"{it}\n" for it in lines).encode("utf-8", "surrogateescape")


def own_messages(stream, errors):
    """Reads rc's standard error to its end. Returns what its own lines say, and passes all else on at once."""
    messages, rest, passing = [], b"", False
    while True:
        piece = os.read(stream.fileno(), 65536)
        if not piece:
            errors.write(rest)
            return messages
        *lines, rest = (rest + piece).split(b"\n")
        for line in lines:
            message = None if passing else message_of(line)
            passing = False
            if message:
                messages.append(message)
            else:
                errors.write(line + b"\n")
        if passing or not (b"rc: ".startswith(rest[:4]) or b"usage: rc ".startswith(rest[:10])):
            errors.write(rest)
            passing, rest = passing or rest != b"", b""
