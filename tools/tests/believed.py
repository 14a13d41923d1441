"""Compares the section "What must be believed" of docs/trust/PROMISES.md with tools/words: the files that it names, the types,
and the lines by crate and by what is to be believed. Prints what differs; the status is 1 where anything does.
"""
import pathlib
import re
import subprocess
import sys

sys.dont_write_bytecode = True
sys.path.insert(0, "tools/lib")
from definitions import REAL_RUN

page = pathlib.Path("docs/trust/PROMISES.md").read_text()
section = page[page.index("## What must be believed"):page.index("## What is promised")]
call, real_run = (" ".join(part.split()) for part in section.split("The clause on real runs asks for"))
real_run = real_run[:real_run.index("Whoever believes less")]
differ = []


def words(*options):
    return subprocess.run(["tools/words", *options], stdout=subprocess.PIPE, text=True).stdout.splitlines()


def files(text):
    """The files that a text names: a folder `CRATE/specs` is that of the names behind it."""
    named, crate = set(), None
    for part in re.findall(r"`([\w/]+(?:\.antt)?)`", text):
        path = re.fullmatch(r"(?:(\w+)/specs/?)?([\w/]+\.antt)?", part)
        crate = path[1] or crate if path else crate
        if path and path[2] and pathlib.Path("crates", crate).exists():
            named.add(f"crates/{crate}/specs/{path[2]}")
    return named


def compare(named, wanted, what):
    differ.extend(f"{what}, of the page alone: {one}" for one in sorted(set(named) - set(wanted)))
    differ.extend(f"{what}, not on the page: {one}" for one in sorted(set(wanted) - set(named)))


def types():
    """The types by crate that the page names, as tools/words prints them."""
    text = call[call.index("They speak of these types"):call.index("Of `std` and `clap`")]
    found, crate = {}, None
    for name in re.findall(r"`(\w+)`", text):
        if name[0].islower():
            crate = name
        else:
            found.setdefault(crate, set()).add(name)
    return {f"{crate} {name}" for crate, names in found.items() for name in names}


def declared():
    """The types by crate that the definitions name, but for those of the kit."""
    for line in words("--declared"):
        crate, _, names = line.partition(": ")
        if crate not in ("std", "clap"):
            yield from (f"{crate} {name}" for name in names.split() if name[0].isupper())


counted = words()
first = set(words("--files"))
begins = ",".join(REAL_RUN)
compare(files(call), first, "files of the call")
compare(files(real_run), set(words("--files", "--from", begins)) - first, "files of real runs")
compare(types(), declared(), "types")
compare([f"{crate} {lines}" for crate, lines in re.findall(r"`(\w+)` (\d+)", call)],
        [line for line in counted if re.fullmatch(r"\w+ \d+", line)], "lines")
differ.extend(f"need not be believed, and stands among what must: {line}" for line in words("--unread") if line)
total, more = re.search(r"(\d+) lines must be believed, (\d+) more", counted[-1]).groups()
if f"they have {total} lines" not in call:
    differ.append(f"the page has not {total} lines")
if not real_run.startswith(f"{more} lines more"):
    differ.append(f"the page has not {more} lines more for real runs")
rows = re.findall(r"^\| [^|]+ \| (`[^|]+) \| (\d+) \|$", section, re.M)
for names, lines in rows:
    begin = ",".join(f"{crate}/{file}.{name}" for name, crate, file in re.findall(r"`(\w+)` of `(\w+)/specs/(\w+)\.antt`", names))
    if (words("--from", begin) or [""])[-1] != f"{lines} lines":
        differ.append(f"{begin} has not {lines} lines")
if len(rows) < 6:
    differ.append("the table of what to believe has fewer than six rows")
print("\n".join(differ))
sys.exit(1 if differ else 0)
