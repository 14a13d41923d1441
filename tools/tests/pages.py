"""Compares what README.md, CHANGES.md and the pages below docs/ show with files and with what the program writes.

A fenced block has directly above it one of these lines:

  <!-- file: PATH -->               the block is the whole file
  <!-- part: PATH -->               its lines follow each other in the file; a line `...` is for lines left out
  <!-- run: WORDS | status=N -->    the block is all that the program writes on these words at the top of the
                                    repository (status 0 where none is given); `...` as above
  <!-- shell: COMMAND | status=N -->  the same of a command of bash, in which `altarica` is the program
                                    the first line of either may show the command, as `$ altarica WORDS` and `$ COMMAND`
  <!-- commands | status=N -->      the block is commands of bash, which end with this status; `./altarica` in them is
                                    the program
  <!-- text -->                     the block is not compared

A table has directly above it `<!-- slips: WORDS | status=N -->`. Each row has what is at the place that the program names, a
slip, and the same without it, each between backquotes. With the slip in place of the line `// the row` of the model in WORDS
the program ends with this status and names this place; with the mended text it ends with status 0.

Further: no page uses certain words of output, files and values (PATTERNS), a line of a page has at most 300 characters,
links lead to files and headings that are there, and each page is named by the README of its folder.

With names of pages it takes these alone.
"""

import glob
import os
import re
import shlex
import shutil
import subprocess
import sys
import tempfile

LENGTH = 300
SECONDS = 120

# Pages that are tried for their links alone until they have a comment of the kinds above.
PENDING = set()

# The mark of pages whose words are those of the sources.
GENERATED = "<!-- written by tools/write_pages from the sources: change these, and run it -->"

# Words that a page has for people alone, and what may be around them all the same.
PATTERNS = [
    (r"\b(is|are|was|were|be|been|being) told\b", r"\b(you|reader|readers|user|users|engineer|engineers|crew|operator|operators) (is|are|was|were) told\b"),
    (r"\bstands?\b", r"\bstands? for\b|\bstands? by\b|\bstands? (up|ready)\b|\b(crew|operator|person|people|engineer|test) stands?\b"),
    (r"\bwhat (is|was) said\b", r"(?!)"),
    (r"\b(is|are) said (of|by|in|there|then)\b", r"(?!)"),
]

COMMENT = re.compile(r"^<!-- (file: (?P<file>\S+)|part: (?P<part>\S+)|run: (?P<run>.*?)|shell: (?P<shell>.*?)|(?P<commands>commands)|(?P<text>text))(?P<status> \| status=(?P<number>\d+))? -->$")
SLIPS = re.compile(r"^<!-- slips: (?P<words>.*) \| status=(?P<number>\d+) -->$")
PROGRAM = os.environ.get("ALTARICA", "")
outputs = {}


def passed(what):
    print(f"passed: {what}")


def failed(what, why):
    why = " ".join(why.split())
    print(f"failed: {what} ({why})")


def point(what, why):
    failed(what, why) if why else passed(what)


def run(words):
    """Returns the status and the output of a command at the top."""
    key = tuple(words)
    if key not in outputs:
        env = {**os.environ, "PATH": f"{folder}:{os.environ['PATH']}", "LC_ALL": "C.UTF-8"}
        try:
            done = subprocess.run(words, stdin=subprocess.DEVNULL, stdout=subprocess.PIPE, stderr=subprocess.STDOUT, env=env, timeout=SECONDS)
            outputs[key] = done.returncode, done.stdout.decode("utf-8", "replace")
        except subprocess.TimeoutExpired:
            outputs[key] = "none", f"it has not ended after {SECONDS} seconds"
    return outputs[key]


def fits(block, whole, is_part):
    """Says why the block's lines are not those of the whole, or nothing."""
    pieces = [[]]
    for line in block:
        if line.strip() == "...":
            pieces.append([])
        else:
            pieces[-1].append(line)
    if not is_part and len(pieces) == 1:
        if block == whole:
            return ""
        for number, (is_there, wanted) in enumerate(zip(block, whole), 1):
            if is_there != wanted:
                return f"line {number} of the block is `{is_there}` and should be `{wanted}`"
        return f"the block has {len(block)} lines and should have {len(whole)}: `{(whole + block)[min(len(whole), len(block))] if len(whole) != len(block) else ''}`"
    at = 0
    for number, piece in enumerate(pieces):
        if not piece:
            continue
        starts = [i for i in range(at, len(whole) - len(piece) + 1) if whole[i : i + len(piece)] == piece]
        if not is_part and number == 0:
            starts = [i for i in starts if i == 0]
        if not is_part and number == len(pieces) - 1:
            starts = [i for i in starts if i + len(piece) == len(whole)]
        if not starts:
            return f"these lines do not follow each other there: `{piece[0]}` and {len(piece) - 1} more"
        at = starts[0] + len(piece)
    return ""


def lines_of(text):
    return text.split("\n")[:-1] if text.endswith("\n") else text.split("\n")


def block_fault(comment, block):
    """Says why a block is not what its comment says."""
    for kind in ("file", "part"):
        path = comment[kind]
        if path:
            if not os.path.isfile(path):
                return f"there is no file {path}"
            with open(path, encoding="utf-8") as it:
                return fits(block, lines_of(it.read()), kind == "part")
    wanted = int(comment["number"] or 0)
    if block and block[0].startswith("$ "):
        command = comment["shell"] or f"altarica {comment['run']}"
        if block[0] != f"$ {command}":
            return f"the first line is `{block[0]}` and should be `$ {command}`"
        block = block[1:]
    if comment["commands"]:
        text = re.sub(r"(^|[\s(;|&])\./altarica\b", r"\1altarica", "\n".join(block))
        status, output = run(["bash", "-c", text])
        return "" if status == wanted else f"the commands end with {status} and not with {wanted}: {output[-300:]}"
    if comment["run"]:
        status, output = run([PROGRAM, *shlex.split(comment["run"])])
    else:
        status, output = run(["bash", "-c", comment["shell"]])
    if status != wanted:
        return f"the status is {status} and not {wanted}: {output[:300]}"
    return fits(block, lines_of(output) if output else [], False)


def slugs_of(lines):
    """Returns the names by which links lead to the headings of a page."""
    found = []
    for line in outside_of_blocks(lines):
        heading = re.match(r"#+ +(.*?) *#*$", line)
        if heading:
            text = re.sub(r"\[([^]]*)\]\([^)]*\)", r"\1", heading[1])
            slug = re.sub(r"[^\w\- ]", "", text.lower()).replace(" ", "-")
            same = sum(it == slug or it.startswith(slug + "-") and it[len(slug) + 1 :].isdigit() for it in found)
            found.append(f"{slug}-{same}" if slug in found else slug)
    return found


def outside_of_blocks(lines):
    """Returns the lines, empty where they belong to a fenced block."""
    is_in, found = False, []
    for line in lines:
        fence = line.startswith("```")
        found.append("" if is_in or fence else line)
        is_in ^= fence
    return found


def read(page):
    with open(page, encoding="utf-8") as it:
        return lines_of(it.read())


def blocks(page, lines, is_pending):
    """Compares each fenced block of a page."""
    number = 0
    while number < len(lines):
        if not lines[number].startswith("```"):
            number += 1
            continue
        end = next((i for i in range(number + 1, len(lines)) if lines[i].startswith("```")), None)
        what = f"{page}:{number + 1}"
        if end is None:
            failed(what, "the block does not end")
            return
        comment = COMMENT.match(lines[number - 1]) if number else None
        if comment:
            point(f"{what} {lines[number - 1][5:-4]}", "" if comment["text"] else block_fault(comment, lines[number + 1 : end]))
        elif not is_pending:
            failed(what, "the block has no comment of a known kind directly above it")
        number = end + 1


def with_row(comment, code):
    """The status, the first line and the model of the words with this code in place of the model's line `// the row`."""
    verb, model, *others = shlex.split(comment["words"])
    with open(model, encoding="utf-8") as it:
        text = re.sub(r"(?m)^ *// the row$", lambda _: code, it.read())
    path = f"{folder}/row.alt"
    with open(path, "w", encoding="utf-8") as it:
        it.write(text)
    outputs.pop((PROGRAM, verb, path, *others), None)
    status, output = run([PROGRAM, verb, path, *others])
    return status, (lines_of(output) or [""])[0], text


def at_place(line, text):
    """What the text has at the place that a line names, or the path that it names."""
    place = re.search(r"([0-9]+):([0-9]+)(?: |$)", line)
    if not place:
        flow = re.search(r": flow (\S+) ", line)
        return flow[1] if flow else line.split(" at ")[-1]
    rows = text.encode().split(b"\n")
    row, column = int(place[1]) - 1, int(place[2]) - 1
    return b"\n".join(rows[row:])[column:].decode("utf-8", "replace")


def row_fault(comment, cells):
    """Says why a row's slip is not refused at its place, or its mended text is."""
    codes = [re.search(r"`([^`]*)`", cell) for cell in cells[:3]]
    if len(codes) < 3 or not all(codes):
        return "a row has three cells with code"
    there, slip, mended = (code[1] for code in codes)
    status, line, text = with_row(comment, slip)
    if status != int(comment["number"]):
        return f"with the slip the program ends with {status}: {line}"
    if not at_place(line, text).startswith(there):
        return f"the place of {line} has `{at_place(line, text)[:20]}`"
    status, line, _ = with_row(comment, mended)
    return f"the mended text ends with {status}: {line}" if status else ""


def tables(page, lines):
    """Tries each row of the tables of slips."""
    for number, line in enumerate(lines):
        comment = SLIPS.match(line)
        at = number + 3
        while comment and at < len(lines) and lines[at].startswith("| "):
            cells = lines[at].strip().strip("|").split("|")
            point(f"{page}:{at + 1} a slip, and how it is mended", row_fault(comment, cells))
            at += 1
        if comment and at == number + 3:
            failed(f"{page}:{number + 1}", "no row of a table is below")


def words(page, lines):
    faults = []
    for number, line in enumerate(outside_of_blocks(lines), 1):
        line = re.sub(r"`[^`]*`|<!--.*?-->", "", line)
        for pattern, exceptions in PATTERNS:
            for found in re.finditer(pattern, line, re.I):
                if not any(it.start() <= found.start() and found.end() <= it.end() for it in re.finditer(exceptions, line, re.I)):
                    faults.append(f"line {number}: `{line[max(0, found.start() - 20) : found.end() + 20]}`")
    point(f"{page}: words for people are used of people", "; ".join(faults[:5]) + (f"; and {len(faults) - 5} more" if len(faults) > 5 else ""))


def size(page, lines):
    long = [str(number) for number, line in enumerate(lines, 1) if len(line) > LENGTH]
    point(f"{page}: its lines have at most {LENGTH} characters", f"longer: lines {', '.join(long[:8])}" * bool(long))


def links(page, lines):
    faults = []
    for number, line in enumerate(outside_of_blocks(lines), 1):
        plain = re.sub(r"`[^`]*`", "", line)
        for target in re.findall(r"\]\(([^)\s]+)\)", plain):
            if re.match(r"\w+:", target):
                continue
            path, _, heading = target.partition("#")
            path = os.path.normpath(os.path.join(os.path.dirname(page), path)) if path else page
            if not os.path.exists(path):
                faults.append(f"line {number}: there is no {path}")
            elif heading and path.endswith(".md") and heading not in slugs_of(read(path)):
                faults.append(f"line {number}: {path} has no heading #{heading}")
        for path in re.findall(r"(?<![\w/.*-])((?:docs|examples|tests|tools)/[\w./-]*\w)", line):
            if not os.path.exists(path) and not re.search(r"\bNAME\b", path):
                faults.append(f"line {number}: there is no {path}")
    point(f"{page}: its links lead somewhere", "; ".join(faults[:6]))


def unused(pages):
    """Looks for files that no page shows or names."""
    text = "\n".join("\n".join(read(page)) for page in pages)
    for folder in ("tests/models/refusals", "tests/models/howto", "tests/models/tools", "tests/ci"):
        lost = [it for it in sorted(glob.glob(f"{folder}/*")) if it not in text and f" {os.path.basename(it)}" not in text]
        point(f"each file of {folder} is on a page", " ".join(lost) and f"not on any: {' '.join(lost)}")


def listed(pages):
    """Looks for pages that the README of their folder has no link to, or that are in no folder."""
    for folder in ("use", "trust", "develop"):
        text = "\n".join(read(f"docs/{folder}/README.md"))
        lost = [it for it in pages if os.path.dirname(it) == f"docs/{folder}" and f"]({os.path.basename(it)})" not in text]
        lost = [it for it in lost if os.path.basename(it) != "README.md"]
        point(f"docs/{folder}/README.md has each page of its folder", " ".join(lost) and f"not there: {' '.join(lost)}")
    lost = sorted({*glob.glob("docs/**/*.md", recursive=True)} - {*pages})
    point("each page is in docs/use, docs/trust or docs/develop", " ".join(lost))


def main():
    pages = sys.argv[1:] or [*sorted(glob.glob("*.md")), *sorted(glob.glob("docs/*/*.md"))]
    if not sys.argv[1:]:
        unused(pages)
        listed(pages)
    for page in pages:
        lines = read(page)
        is_pending = page in PENDING and not any(map(COMMENT.match, lines))
        blocks(page, lines, is_pending)
        tables(page, lines)
        links(page, lines)
        if not is_pending:
            if GENERATED not in lines:
                words(page, lines)
            size(page, lines)


folder = tempfile.mkdtemp(prefix="altarica-pages-")
try:
    os.symlink(os.path.realpath(PROGRAM), f"{folder}/altarica")
    main()
finally:
    shutil.rmtree(folder)
