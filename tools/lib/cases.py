"""The cases of altarica_cases as jobs for the program itself: their words, their files, and what has to come. Not proved.

The program of cases runs them in memory; here each is taken apart, so that the program answers it over real files. Cases over
files and outputs that are made to fail are left out: of real ones that cannot be ordered."""
import ast
import os
import re
from collections import namedtuple

from command import TOP

FOLDER = os.path.join(TOP, "crates", "altarica_cases")
DATA = os.path.join(FOLDER, "data")
LIST = os.path.join(FOLDER, "stdout")
"""What the program of cases writes: first a line for each case."""
PLANTS = "plants"
"""The folder beside the cases that is none."""
Job = namedtuple("Job", "name words folder files status text is_end")
"""The words of a job with the folder of its files, or their texts where it has none; its status, and its whole text, or where
`is_end` the last line of it."""
LIMIT = re.compile(r'Limit \{\s*name: "([^"]*)",\s*job: "([^"]*)",\s*model: &\[(.*?)\],\s*script: &\[(.*?)\],\s*is_long: (\w+),\s*\}', re.S)
PART = re.compile(r'\(\s*("(?:[^"\\]|\\.)*"),\s*([\d_]+),\s*([\d_]+),\s*([\d_]+),?\s*\)')
HEADER = re.compile(rb"(\d+)(?: faults \d+ \d+)?\n")
LISTING = re.compile(rb"^long-listing: status (\d+) bytes (\d+)$", re.M)


def read(*path):
    with open(os.path.join(FOLDER, *path), "rb") as file:
        return file.read()


def folder_of(name):
    return os.path.join(DATA, name)


def is_case(name):
    return name != PLANTS and os.path.isdir(folder_of(name))


def names():
    """The names of the cases, in the order in which they run."""
    return sorted(filter(is_case, os.listdir(DATA)), key=os.fsencode)


def words_of(name):
    """The words of the job of a case."""
    text = read("data", name, "words")
    return text.split(b"\n", 1)[0].split(b" ") if text else []


def is_made_to_fail(name):
    """Whether a case is over files or outputs that are made to fail."""
    return os.path.exists(os.path.join(folder_of(name), "fails"))


def case(name):
    """The job of a case, with what is stored for it."""
    status = HEADER.fullmatch(read("data", name, "status"))
    if not status:
        raise ValueError("%s/status is no status" % name)
    return Job(name, words_of(name), folder_of(name), {}, int(status[1]), read("data", name, "stdout"), False)


def listed():
    """The lines that the program of cases writes of the cases, where each is answered as it is stored; none of a case that is begun
    and has no status yet."""
    stored = [name for name in names() if os.path.exists(os.path.join(folder_of(name), "status"))]
    return b"".join(b"%s: status %s" % (os.fsencode(name), read("data", name, "status")) for name in stored)


def split_list():
    """What is stored of the program of cases: the lines of the cases, and what is behind them."""
    text = read("stdout")
    at = text.index(next(asked_texts())[0])
    return text[:at], text[at:]


class Stored:
    """A stored output of the program of cases, taken apart from its start."""

    def __init__(self, text):
        self.bytes, self.at = text, 0

    def skip(self, marker):
        """Goes behind the next marker; returns where it begins."""
        start = self.bytes.index(marker, self.at)
        self.at = start + len(marker)
        return start

    def status(self):
        found = HEADER.match(self.bytes, self.at)
        self.at = found.end()
        return int(found[1])


def parts_of(text):
    """The parts of a long text: what is written, and for which numbers at the limit, and past it."""
    text = re.sub(r"\\\n\s*|^\s*//.*$", "", text, flags=re.M)
    if PART.sub("", text).strip(" ,\n"):
        raise ValueError("no parts of a text: %s" % PART.sub("", text).strip())
    return [(ast.literal_eval("b" + part), *(int(number.replace("_", "")) for number in numbers)) for part, *numbers in PART.findall(text)]


def made(parts, is_past):
    """The long text of these parts."""
    return b"".join(part.replace(b"@", b"%d" % max(0, number - 1)).replace(b"#", b"%d" % number) if b"#" in part or b"@" in part else part
                    for part, first, at, past in parts for number in range(first, past if is_past else at))


def asked_texts():
    for number, line in enumerate(read("data", "texts").splitlines(), 1):
        job, colon, text = line.partition(b": ")
        if colon:
            name = "text %d: %s" % (number, job.decode())
            yield b"%s\n%s: status " % (text, job), Job(name, job.split(b" "), None, {"model": text, "script": b""}, 0, b"", False)


def asked_limits():
    for name, job, model, script, is_long in LIMIT.findall(read("src", "limits.rt").decode()):
        for is_past in (False, True):
            files = {"model": made(parts_of(model), is_past), "script": made(parts_of(script), is_past)}
            where = "past the limit" if is_past else "at the limit"
            yield b"%s: status " % name.encode(), Job("%s %s" % (name, where), job.encode().split(b" "), None, files, 0, b"", is_long == "true")


def answered(asked, stored, end):
    """The jobs with the statuses and the texts that are stored, up to the marker of what follows them."""
    before = None
    for marker, job in [*asked, (end, None)]:
        start = stored.skip(marker)
        if before:
            yield before[0]._replace(status=before[1], text=stored.bytes[before[2]:start])
        if job:
            before = (job, stored.status(), stored.at)


def all_cases():
    """The jobs of the cases, but for those that are made to fail."""
    return [case(name) for name in names() if not is_made_to_fail(name)]


def all_texts():
    """The jobs of the texts of one line."""
    return [*answered(asked_texts(), Stored(split_list()[1]), next(asked_limits())[0])]


def all_limits():
    """The jobs of the limits, each at its number and one past it."""
    limits, stored = [*asked_limits()], Stored(split_list()[1])
    stored.at = stored.bytes.index(b"\n" + limits[0][0])
    return [*answered(limits, stored, b"long-listing: status ")]


def left_out():
    """How many cases are over files and outputs that are made to fail."""
    return sum(map(is_made_to_fail, names()))


def long_listing():
    """The job of the long listing, with its status, and how many bytes it has."""
    source = read("src", "sinks.rt").decode()
    model = made(parts_of(re.search(r"const MODEL: \[Part; \d+\] = \[(.*?)\n\];", source, re.S)[1]), False)
    status, size = map(int, LISTING.search(read("stdout")).groups())
    job = re.search(r'words_of\(rt, "([^"]*)"\)', source)[1]
    return Job("long listing", job.encode().split(b" "), None, {"model": model}, status, b"", False), size
