"""The program that the helpers ask. Not proved."""
import functools
import hashlib
import os
import shutil
import stat
import subprocess
from collections import namedtuple

import command
from command import TOP, CouldNot, Refused, files_of, say, shown

Program = namedtuple("Program", "words is_unproved note")
"""words call it; note is what is said once of a run with it, or ``."""

KEPT = os.path.join(TOP, "out", "altarica")
BUILT = os.path.join(TOP, "crates", "altarica_main", "out", "altarica_main")
UNPROVED = os.path.join(TOP, "out", "unproved")
SCRIPT = os.path.join(TOP, "altarica")
NOT_PROVED = "no proved program is built here, so this takes out/unproved: nothing of this run is proved"
NOT_KNOWN = "the program of this checkout is not known to be proved: it was made of other sources than are here, or its note is gone"
HOW = ("there is no program: ./altarica --unproved check examples/ring.alt compiles one in minutes, without proofs; or set "
       "ALTARICA")
if command.IS_INSTALLED:
    NOT_KNOWN = "the program that is installed is not known to be proved: altarica --version says what it was made of"
    HOW = "the installed program is gone: install the package again, or set ALTARICA"


def is_utf8(word):
    try:
        os.fsencode(word).decode("utf-8")
    except UnicodeDecodeError:
        return False
    return True


def is_program(path):
    return os.access(path, os.X_OK) and not os.path.isdir(path)


def loader_of(path):
    """The words before a program that `./altarica --unproved` has compiled: the loader of the kit."""
    try:
        with open(path + ".loader", "rb") as file:
            words = [os.fsdecode(word) for word in file.read().split(b"\0") if word]
    except OSError:
        return []
    return words


def unproved(path, note=""):
    """A program without its proofs, or None where its loader is gone."""
    words = loader_of(path)
    return Program([*words, path], True, note) if all(map(is_program, words[:1])) else None


def named(name):
    """The program that ALTARICA names: a path, or a name without `/` on the path."""
    path = name if "/" in name else shutil.which(name)
    if path is None or not is_program(path):
        raise CouldNot("ALTARICA names %s, which is no program" % shown(name))
    return os.path.exists(path + ".loader") and unproved(path) or Program([path], False, "")


@functools.lru_cache(None)
def sum_of(path):
    """The SHA-256 sum of a file."""
    total = hashlib.sha256()
    with open(path, "rb") as file:
        while block := file.read(1 << 20):
            total.update(block)
    return total.hexdigest()


@functools.lru_cache(None)
def made_of_these():
    """The programs `proved` and `unproved` of this checkout that were made of the sources that are here, as the script knows them
    by its notes; a word is missing where there is none."""
    try:
        said = subprocess.run([SCRIPT, "--version"], stdout=subprocess.PIPE, stderr=subprocess.DEVNULL, stdin=subprocess.DEVNULL,
                              check=False).stdout
    except OSError:
        return {}
    lines = [line.split(" program: ", 1) for line in os.fsdecode(said).split("\n") if " program: " in line]
    return {word: path for word, path in lines if is_program(path)}


def proved():
    """The file of the program that is proved of these sources, or None."""
    return made_of_these().get("proved") if is_program(KEPT) or is_program(BUILT) else None


def here():
    """The programs of this checkout, the best one first: the proved one, the one without its proofs, those of other sources."""
    built = list(filter(is_program, (KEPT, BUILT)))
    compiled = unproved(UNPROVED, NOT_PROVED) if is_program(UNPROVED) else None
    is_of_these = bool(compiled) and (not built or made_of_these().get("unproved") == UNPROVED)
    if proved():
        yield Program([proved()], False, "")
    if is_of_these:
        yield compiled
    for path in built:
        yield Program([path], False, NOT_KNOWN)
    if compiled and not is_of_these:
        yield compiled


@functools.lru_cache(None)
def found():
    """The program: the one that ALTARICA names, else the proved one of this checkout, else the one that `./altarica
    --unproved` has compiled here, else that of the path."""
    if os.environ.get("ALTARICA"):
        return named(os.environ["ALTARICA"])
    path = shutil.which("altarica")
    # The script of this checkout would begin the proofs, which take hours.
    path = None if path and os.path.realpath(path) == SCRIPT else path
    it = next(here(), None) or path and Program([path], False, "")
    if not it:
        raise CouldNot(HOW)
    return it


def program():
    """The file of the program."""
    return found().words[-1]


def proved_words():
    """Whether the program is proved, in words, as far as this checkout knows it."""
    it = found()
    if it.is_unproved or is_program(UNPROVED) and sum_of(it.words[-1]) == sum_of(UNPROVED):
        return "not proved: it was compiled without its proofs"
    if proved() and sum_of(it.words[-1]) == sum_of(proved()):
        return "the proved one of this package" if command.IS_INSTALLED else "the proved one of this checkout"
    if command.IS_INSTALLED:
        return "not known to be proved: altarica --version says what it was made of"
    return "not known to be proved: it is none that this checkout has proved of the sources that are here"


write = command.write

asked = []
"""The words of each call, in order."""


def run(words):
    """The status and the text that the program writes for these words."""
    it = found()
    strange = next((word for word in words if not is_utf8(word)), None)
    if strange is not None:
        raise CouldNot("the program takes no words that are no UTF-8, as %s" % shown(strange))
    if it.note and not asked:
        say(it.note)
    asked.append(words)
    try:
        done = subprocess.run([*it.words, *words], stdout=subprocess.PIPE, stdin=subprocess.DEVNULL, check=False,
                              env={} if it.is_unproved else None)
    except OSError as error:
        raise CouldNot("%s: %s" % (shown(error.filename or it.words[0]), error.strerror)) from error
    except ValueError as error:
        raise CouldNot("these words cannot be given to the program: %s" % error) from error
    return done.returncode, done.stdout.decode("latin-1")


stamps = {}
"""Of each model that was asked for: what tells whether it has changed since."""


def stamp_of(name):
    """What changes with a file, or None of what is no plain file."""
    try:
        found = os.stat(name)
    except OSError:
        return None
    return (found.st_ino, found.st_size, found.st_mtime_ns) if stat.S_ISREG(found.st_mode) else None


def check_unchanged():
    """CouldNot where a model is another one than when it was first asked for."""
    for name, stamp in stamps.items():
        if stamp is not None and stamp_of(name) != stamp:
            raise CouldNot("%s has changed while it was read: what was written may be of two models" % shown(name))


command.at_end.append(check_unchanged)


def read_again(*names):
    """CouldNot where a file can be read once alone: it is read by the program and here, and more than once."""
    for name in names:
        is_stream = os.path.exists(name) and not os.path.isfile(name) and not os.path.isdir(name)
        if is_stream or os.path.abspath(name).startswith(("/dev/stdin", "/dev/fd/", "/proc/")):
            raise CouldNot("%s is no plain file, and it is read more than once: write it to a file first" % shown(name))


def ask(command, files, options=()):
    """The text that the program writes for a command; Refused where it refuses."""
    read_again(*files)
    stamps.setdefault(files[0], stamp_of(files[0]))
    words = [command, *options, *files_of(*files)]
    status, text = run(words)
    if status in (8, 9, 12) or status < 0:
        raise CouldNot("the program ends with status %d, without an answer, on %s" % (status, " ".join(map(shown, words))))
    if status:
        raise Refused(words, status, text, files[0])
    return text
