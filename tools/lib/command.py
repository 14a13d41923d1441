"""What the helpers share: how they take their words, the statuses that they end with, and how they write. Not proved.

The texts of models and of the program are strings with one character for each byte (Latin-1), so columns count bytes. A
name of the command line is turned into such a text by `shown`, and what is written is turned into bytes again.
"""
import argparse
import contextlib
import os
import signal
import stat
import sys
import tempfile
import unicodedata

DONE, FOUND, NO_USE, REFUSED, COULD_NOT = range(5)
TOP = os.path.dirname(os.path.dirname(os.path.dirname(os.path.realpath(__file__))))
NAME = os.path.basename(sys.argv[0])
IS_INSTALLED = os.path.exists(os.path.join(TOP, "MADE_OF"))
CALL = "altarica" if IS_INSTALLED else "./altarica"
"""How the script is called: a package has it on the path."""
if sys.version_info < (3, 9):
    sys.stderr.write("%s: this needs Python 3.9, and python3 is %s\n" % (NAME, sys.version.split()[0]))
    sys.exit(COULD_NOT)
TURNING = "\u061c\u200e\u200f\u2028\u2029\u202a\u202b\u202c\u202d\u202e\u2066\u2067\u2068\u2069"
"""Characters that end a line, or turn the direction of writing."""
NAMED = "\0"
"""The mark of a word that is a name, whatever it begins with: no word of a command line has it."""
MODEL_OPTIONS = ("--main", "--observer", "--value", "--nodes", "--drop")


unsaid = []
"""What standard error did not take."""
at_end = []
"""Functions that are called once the work is done."""


class Stopped(BaseException):
    """A signal ends the run."""

    def __init__(self, number):
        super().__init__(number)
        self.status = 128 + number

    @classmethod
    def by(cls, number, _):
        """Takes the signal, and no further one."""
        handle_signals(signal.SIG_IGN)
        raise cls(number)


class NoUse(Exception):
    """These words are no use, for this reason."""


class CouldNot(Exception):
    """What was asked for could not be done, for this reason."""


class Refused(Exception):
    """The program refused these words with this line and this status; `file` is the model."""

    def __init__(self, words, status, text, file):
        super().__init__(text)
        self.words, self.status, self.text, self.file = words, status, text, file

    @property
    def line(self):
        """The last line of the program with its status."""
        return "%s (status %d)" % ((self.text.rstrip("\n").split("\n") or [""])[-1], self.status)


class Once(argparse.Action):
    """An option that is given once."""

    def __call__(self, parser, found, value, option=None):
        if getattr(found, self.dest) is not None:
            parser.error("%s is given twice" % option)
        setattr(found, self.dest, value)


class Words(argparse.ArgumentParser):
    """The words of a helper. An option with a value is given once, and no option is cut short."""

    def __init__(self):
        super().__init__(prog=NAME, add_help=False, allow_abbrev=False)
        self.register("action", None, Once)

    def error(self, message):
        raise NoUse(message.replace(NAMED, ""))

    def mixed(self):
        """Lets names come behind options too."""
        self.parse_args = self.parse_mixed
        return self

    def parse_mixed(self, words):
        """As parse_args, in any order; behind `--` each word is a name, which is marked until it is read."""
        at = words.index("--") if "--" in words else len(words)
        found = self.parse_intermixed_args(words[:at] + [NAMED + word for word in words[at + 1:]])
        for name, value in vars(found).items():
            setattr(found, name, unmarked(value))
        return found

    def options(self, *names):
        """Adds options of the program."""
        for name in names:
            self.add_argument(name)
        return self


def unmarked(value):
    """A value that was read, without marks of names."""
    if isinstance(value, list):
        return list(map(unmarked, value))
    return value[len(NAMED):] if isinstance(value, str) and value.startswith(NAMED) else value


def options_of(words, *names):
    """These options as words for the program, where they were given."""
    given = [(name, getattr(words, name[2:])) for name in names]
    return ["%s=%s" % (name, value) for name, value in given if value is not None]


def files_of(*names):
    """Files as words for the program, with `--` before them where one looks like an option."""
    return ["--", *names] if any(name.startswith("-") and name != "-" for name in names) else list(names)


def without_controls(text):
    """A text of characters in which each control character, and each that turns the direction of writing or ends a line, is
    written as `\\x1b` or `\\u202e`."""
    return "".join("\\x%02x" % ord(c) if unicodedata.category(c) == "Cc" else "\\u%04x" % ord(c) if c in TURNING else c for c in text)


def bytes_of(text):
    """The bytes of a text with one character for each, or, where some are no bytes, of a text of characters."""
    try:
        return text.encode("latin-1")
    except UnicodeEncodeError:
        return text.encode("utf-8", "surrogateescape")


def escaped(text):
    """A text of bytes without control characters."""
    if text.isascii() and text.isprintable():
        return text
    return without_controls(bytes_of(text).decode("utf-8", "surrogateescape")).encode("utf-8", "surrogateescape").decode("latin-1")


def shown(name):
    """A name of the command line as bytes, in one line and without control characters."""
    return escaped(os.fsencode(name).decode("latin-1"))


def printed(name):
    """A name of the command line as people read it: what is no UTF-8 in it is written as `\\xff`."""
    return without_controls(os.fsencode(name).decode("utf-8", "backslashreplace"))


def readable(name):
    """The same as bytes, for texts that are UTF-8."""
    return printed(name).encode("utf-8").decode("latin-1")


def content_of(name):
    """The bytes of a file. A pipe and a terminal come to an end; a device like /dev/zero does not, and is no file."""
    with open(name, "rb") as file:
        about = os.fstat(file.fileno())
        is_device = stat.S_ISBLK(about.st_mode) or stat.S_ISCHR(about.st_mode) and not file.isatty()
        if is_device and about.st_rdev != os.stat(os.devnull).st_rdev:
            raise CouldNot("%s is a device, and no file" % shown(name))
        return file.read()


def write(text):
    """Writes a text of bytes to standard output."""
    sys.stdout.buffer.write(text.encode("latin-1"))


def to_errors(text):
    """Writes a text of bytes to standard error. Where that takes nothing, the run ends with COULD_NOT."""
    try:
        sys.stderr.buffer.write(bytes_of(text))
        sys.stderr.buffer.flush()
    except OSError:
        unsaid.append(text)
        lead_away(sys.stderr)


def lead_away(file):
    """Lets nothing more go to a standard file that takes nothing."""
    nowhere = os.open(os.devnull, os.O_WRONLY)
    os.dup2(nowhere, file.fileno())
    os.close(nowhere)


def say(text):
    """Writes a line to standard error, with the helper's name."""
    to_errors("%s: %s\n" % (escaped(NAME), escaped(text)))


def put(name, content):
    """Writes bytes to a file, whole or not at all; to what is no plain file as they come."""
    if name.endswith("/"):
        raise CouldNot("%s names a folder" % shown(name))
    # A pipe has a name under /dev that leads to no other one.
    if os.path.exists(name) and not stat.S_ISREG(os.stat(name).st_mode):
        try:
            with open(name, "wb") as file:
                file.write(content)
        except OSError as error:
            raise CouldNot("%s: %s" % (shown(name), error.strerror)) from error
        return
    target = os.path.realpath(name)
    mask = os.umask(0)
    os.umask(mask)
    before = os.stat(target) if os.path.exists(target) else None
    made = None
    try:
        handle, made = tempfile.mkstemp(prefix=".altarica-", dir=os.path.dirname(target))
        with os.fdopen(handle, "wb") as file:
            file.write(content)
        if before is not None:
            # The owner stays, where this user may give files away.
            with contextlib.suppress(OSError):
                os.chown(made, before.st_uid, before.st_gid)
        os.chmod(made, 0o666 & ~mask if before is None else stat.S_IMODE(before.st_mode))
        os.replace(made, target)
    except BaseException as error:
        with contextlib.suppress(OSError, TypeError):
            os.unlink(made)
        if isinstance(error, OSError):
            raise CouldNot("%s: %s" % (shown(name), error.strerror)) from error
        raise


def apart(written, *read):
    """NoUse where the file that is to be written is one of those that are read."""
    for name in read:
        if written is not None and name != "-" and os.path.isfile(written) and os.path.exists(name) and os.path.samefile(written, name):
            raise NoUse("%s is read, so it is not written too" % written)


def version():
    """The helper's name with the version."""
    try:
        with open(os.path.join(TOP, "VERSION"), encoding="utf-8") as file:
            number = file.read().strip()
    except OSError:
        number = ""
    return "%s of altarica %s\n" % (NAME, number or "of no version")


def own_words(words):
    """The words before `--`."""
    return words[:words.index("--")] if "--" in words else words


def reason_of(error):
    """What went wrong, in a line."""
    if isinstance(error, CouldNot):
        return escaped(str(error))
    if isinstance(error, OSError) and error.strerror:
        return "%s: %s" % (shown(error.filename), error.strerror) if error.filename is not None else error.strerror
    if isinstance(error, MemoryError):
        return "there is not enough memory"
    return escaped("this helper failed: %s: %s" % (type(error).__name__, error))


def ended(about, declare, work, words, needs_words):
    """Does the work and returns the status; says why where it could not be done."""
    try:
        if needs_words and not words:
            to_errors(about.strip() + "\n")
            return NO_USE
        if {"--help", "-h"} & set(words):
            write(about.strip() + "\n")
            status = DONE
        elif "--version" in words:
            write(version())
            status = DONE
        else:
            status = work(declare(Words()).parse_args(sys.argv[1:]))
            for check in at_end:
                check()
        sys.stdout.flush()
        return status or DONE
    except NoUse as error:
        say(shown(str(error)))
        to_errors("usage: %s\n%s --help says more\n" % (about.strip().split("\n\n")[0].replace("\n", "\n       "), NAME))
        return NO_USE
    except Refused as refused:
        say("%s: %s" % (shown(refused.file), refused.line))
        return REFUSED
    except Exception as error:
        say(reason_of(error))
        return COULD_NOT


def open_what_is_closed():
    """Opens the standard files that are closed, so that no other file gets their numbers; returns whether output was."""
    was_closed = sys.stdout is None
    for number, name in enumerate(("stdin", "stdout", "stderr")):
        if getattr(sys, name) is None:
            handle = os.open(os.devnull, os.O_RDWR)
            if handle != number:
                os.dup2(handle, number)
                os.close(handle)
            setattr(sys, name, os.fdopen(number, "w" if number else "r", closefd=False))
    return was_closed


def handle_signals(handler):
    """Handles the signals by which a run is stopped, but for those that are ignored already."""
    for number in (signal.SIGINT, signal.SIGTERM, signal.SIGHUP):
        if signal.getsignal(number) != signal.SIG_IGN:
            signal.signal(number, handler)


def flushed(status):
    """The status at the end, once all is written."""
    try:
        sys.stdout.buffer.flush()
    except OSError as error:
        if status != COULD_NOT:
            say("standard output: %s" % error.strerror)
        status = COULD_NOT
        lead_away(sys.stdout)
    return COULD_NOT if unsaid else status


def run(about, declare, work, own=own_words, needs_words=True):
    """Runs a helper: `about` is what it says of itself, `declare` adds its words to a parser, `work` takes them and returns
    a status, `own` gives the words among which --help and --version are its own. Ends the process; where it is stopped, what
    it has begun to write is taken away."""
    signal.signal(signal.SIGPIPE, signal.SIG_DFL)
    sys.setrecursionlimit(20000)
    about = about or "%s: PYTHONOPTIMIZE takes away what it says of itself" % NAME
    try:
        handle_signals(Stopped.by)
        if open_what_is_closed():
            say("standard output is closed")
            status = COULD_NOT
        else:
            status = flushed(ended(about, declare, work, own(sys.argv[1:]) or sys.argv[1:2], needs_words))
        handle_signals(signal.SIG_DFL)
    except Stopped as stopped:
        status = stopped.status
    sys.exit(status)
