"""Compares what the pages about the sources name with the sources.

Of each page in PAGES:

- a path of a crate is a file or a folder there: `gts_core/src/print.rt`. The name of a file alone, or `src/..` and
  `specs/..`, is in a crate that the same row, item or paragraph names before, or in some crate where it names none
- `NAME in PATH`: the file declares the name
- `CRATE::NAME` and `CRATE::MODULE::NAME`: the crate has this function. `TYPE::NAME`: a crate that has the type has it
- every other name between back quotes is a word of the sources
- no crate follows itself: `x`, `x`

Further: crates.txt and ARCHITECTURE.md have the same crates under the same headings, each below what uses it, each with a
job of at most 12 words, and once in the picture; each rule, limit, command and refusal has a row there; EDITS.md and the
folders must-fail have the same edits, and its functions and clauses are there. tools/tests/generated.sh tries the other pages that
are written from the sources.
"""

import functools
import pathlib
import re

PAGES = "ARCHITECTURE CONTRIBUTING DECISIONS GLOSSARY PROMISES PROOFS QUALIFICATION SPEED".split()
MOST_WORDS = 12

# Names that no source has: of other files, of packages, of the kit, and for what a reader is to add.
OTHER = set("""HANDLES RT_JOBS FILE PATH N KIND PROGRAM graphviz chromium vim zsh groff rt Debug find_ read_ write_ first_
    _text _cases _laws KeepsS9 BreaksS9""".split())

CRATES = pathlib.Path("crates")
IDENTIFIER = r"[A-Za-z_]\w*"
DECLARED_RT = r"\b(?:fn|struct|enum|trait|type|const|static|mod|ensures) {}\b"
DECLARED_ANTT = r"^\s*(?:[a-z]+ )*{}\b[^=\n]*:"


def point(what, faults):
    shown = "; ".join(faults[:8]) + (f"; and {len(faults) - 8} more" if len(faults) > 8 else "")
    print(f"failed: {what} ({shown})" if faults else f"passed: {what}")


@functools.lru_cache(None)
def text_of(path):
    return pathlib.Path(path).read_text(encoding="utf-8")


def page_of(name):
    return text_of(file_of(name))


def file_of(name):
    return next(str(it) for it in pathlib.Path("docs").glob(f"*/{name}.md"))


@functools.lru_cache(None)
def sources(crate="*", folders=("src", "specs", "proofs")):
    """The files of a crate, or of all."""
    endings = [(folder, ending) for folder in folders for ending in ("rt", "antt")]
    return [it for folder, ending in endings for it in CRATES.glob(f"{crate}/{folder}/**/*.{ending}")]


def declares(path, name):
    pattern = DECLARED_RT if str(path).endswith(".rt") else DECLARED_ANTT
    return re.search(pattern.format(re.escape(name)), text_of(path), re.M) is not None


@functools.lru_cache(None)
def functions_of(crate):
    return {name for it in sources(crate, ("src",)) for name in re.findall(r"\bfn (\w+)", text_of(it))}


@functools.lru_cache(None)
def names_of_proofs():
    """The names of the files in the folders of proofs."""
    return {it.name for it in CRATES.glob("*/proofs/*/**/*.antt")}


@functools.lru_cache(None)
def words():
    """All words of the sources, of the names of their files, and of the helpers."""
    found = OTHER | set(crates())
    for it in sources(folders=("src", "specs", "proofs", "must-fail")) + [*CRATES.glob("*/must-fail/*.edit")]:
        found |= {it.stem} | set(re.findall(IDENTIFIER, text_of(it)))
    for it in [*pathlib.Path("tools").glob("**/*"), pathlib.Path("altarica")]:
        found.add(it.stem)
        if it.is_file() and it.suffix in ("", ".py", ".sh"):
            found |= set(re.findall(IDENTIFIER, text_of(it)))
    return found


@functools.lru_cache(None)
def lines_of_crates():
    """The headings of crates.txt with their crates, and for each crate what it uses."""
    headings, uses = [], {}
    for line in text_of("crates.txt").split("\n")[1:]:
        if line.startswith("# "):
            headings.append((line[2:], []))
        elif line:
            name, _, used = line.partition(":")
            headings[-1][1].append(name)
            uses[name] = used.split()
    return headings, uses


def crates():
    return list(lines_of_crates()[1])


def blocks(text):
    """The rows, items and paragraphs of a page, each with the number of its first line; fenced blocks are left out."""
    found, is_fenced = [], False
    for number, line in enumerate(text.split("\n"), 1):
        if line.startswith("```"):
            is_fenced = not is_fenced
        begins = re.match(r"\s*(- |\d+\. |\|)", line)
        if is_fenced or line.startswith("```") or not line.strip():
            found.append((number, ""))
        elif begins or not found or not found[-1][1] or line.startswith("#"):
            found.append((number, line))
        else:
            found[-1] = (found[-1][0], f"{found[-1][1]} {line.strip()}")
    return [it for it in found if it[1]]


class Block:
    """One row, item or paragraph, and what it has named so far."""

    def __init__(self, text, crate):
        self.text = text
        self.named = [crate] if crate else []

    def faults(self):
        twice = re.findall(r"`(\w+)`(?:,| and|, and) `\1`", self.text)
        found = [f"`{name}` follows itself" for name in twice if name in crates()]
        for token in re.findall(r"`([^`]+)`", self.text):
            fault = self.fault_of(token)
            if fault:
                found.append(f"`{token}`: {fault}")
        for names, path in re.findall(r"((?:`\w+`(?:, | and )?)+) in `([\w./-]+)`", self.text):
            file = self.file(path)
            if file and file.is_file():
                lost = [it for it in re.findall(r"`(\w+)`", names) if it not in OTHER and not declares(file, it)]
                found += [f"`{it}` is not declared in `{path}`" for it in lost]
        return found

    def fault_of(self, token):
        if re.fullmatch(r"[\w-]+(/[\w.*-]+)+/?", token):
            return self.path_fault(token)
        if re.fullmatch(r"\w+\.(rt|antt)", token):
            return "" if "NAME" in token or self.file(token) or token in names_of_proofs() else "no crate that is named before has this file"
        if re.fullmatch(r"\w+(::\w+)+", token):
            return self.qualified_fault(token.split("::"))
        if token in crates():
            self.named.append(token)
        if re.fullmatch(IDENTIFIER, token) and "NAME" not in token:
            return "" if token in words() else "no word of the sources"
        return ""

    def path_fault(self, path):
        if "NAME" in path or "*" in path:
            return ""
        first, _, rest = path.removeprefix("crates/").partition("/")
        if first in crates() or is_of_kit(first):
            self.named.append(first)
            return "" if is_of_kit(first) or (CRATES / first / rest).exists() else "not there"
        if first in ("src", "specs", "proofs", "data", "must-fail"):
            return "" if self.file(path) else "no crate that is named before has it"
        is_of_crate = path.startswith("crates/") or rest.split("/")[0] in ("src", "specs", "proofs", "must-fail")
        return "no such crate" if is_of_crate else ""

    def qualified_fault(self, parts):
        if parts[0] in crates():
            self.named.append(parts[0])
            if len(parts) == 2 and (CRATES / parts[0] / "src" / f"{parts[1]}.rt").exists():
                return ""
            where = sources(parts[0], ("src",)) if len(parts) == 2 else [CRATES / parts[0] / "src" / f"{parts[1]}.rt"]
            return "" if any(it.exists() and declares(it, parts[-1]) for it in where) else "no such function"
        where = [it for it in sources(folders=("src",)) if declares(it, parts[0])]
        crate = {it.parts[1] for it in where}
        has = any(re.search(rf"\b{parts[-1]}\b", text_of(it)) for name in crate for it in sources(name, ("src",)))
        return "" if has or is_of_kit(parts[0]) else "no such type, or it has no such name"

    def file(self, path):
        """The file of this path, or of this name in a crate that was named before, the last one first."""
        first = path.removeprefix("crates/").partition("/")[0]
        if first in crates():
            return CRATES / path.removeprefix("crates/")
        folders = ("",) if "/" in path else ("src", "specs", "proofs")
        if any(map(is_of_kit, self.named)):
            return CRATES
        for crate in reversed(self.named or crates()):
            for folder in folders:
                if (CRATES / crate / folder / path).exists():
                    return CRATES / crate / folder / path
        return None


def is_of_kit(name):
    """Whether a crate uses a library of this name that has no folder here."""
    return any(name in used for used in lines_of_crates()[1].values()) and name not in crates() or name == "std"


def named_things():
    for page in PAGES:
        faults, crate = [], None
        for number, text in blocks(page_of(page)):
            above = re.match(r"- `(\w+)`( \([\w ]+\))?$", text)
            if text.startswith("#") or above:
                crate = above[1] if above else None
            faults += [f"line {number}: {it}" for it in Block(text, crate).faults()]
        point(f"{file_of(page)} names what is there", faults)


def rows_below(page, head):
    """The rows of the table with this head, each as its cells."""
    lines = page_of(page).split("\n")
    start = lines.index(head) + 2
    rows = []
    for line in lines[start:]:
        if not line.startswith("|"):
            break
        rows.append([it.strip() for it in line.strip("|").split("|")])
    return rows


def order_of_crates():
    headings, uses = lines_of_crates()
    seen, faults = set(), []
    for name, used in uses.items():
        faults += [f"{name} uses {it}, which is below it" for it in used if it in uses and it not in seen]
        seen.add(name)
    folders = {it.name for it in CRATES.iterdir() if (it / "src").is_dir()}
    faults += [f"{it} is a folder or a line alone" for it in sorted(folders ^ seen)]
    names = [name for _, listed in headings for name in listed]
    faults += [f"{it} has two lines" for it in sorted(seen) if names.count(it) > 1]
    point("crates.txt has each crate once, below those that it uses", faults)


def table_of_crates():
    headings, faults, shown = lines_of_crates()[0], [], []
    for first, job in rows_below("ARCHITECTURE", "| Crate | Job |"):
        if first.startswith("**"):
            shown.append((f"{first.strip('*')}: {job.strip('*')}", []))
        else:
            shown[-1][1].append(first.strip("`"))
            if len(job.split()) > MOST_WORDS:
                faults.append(f"the job of {first} has {len(job.split())} words")
    for (heading, names), (title, listed) in zip(headings, shown):
        if heading != title:
            faults.append(f"`{heading}` in crates.txt is `{title}` in the table")
        if names != listed:
            faults.append(f"under {heading}: {' '.join(names)} in crates.txt, {' '.join(listed)} in the table")
    if len(headings) != len(shown):
        faults.append(f"crates.txt has {len(headings)} headings, the table {len(shown)}")
    point("docs/develop/ARCHITECTURE.md has the crates of crates.txt with their jobs", faults)


def picture_of_crates():
    picture = page_of("ARCHITECTURE").partition("## The passes")[2].partition("\n```\n")[2].partition("\n```")[0]
    counts = {it: len(re.findall(rf"\b{it}\b", picture)) for it in crates()}
    titles = [it.partition(":")[0] for it, _ in lines_of_crates()[0]]
    faults = [f"{it} is there {n} times" for it, n in counts.items() if n != 1]
    faults += [f"there is no {it}" for it in titles if it not in picture]
    point("docs/develop/ARCHITECTURE.md has each crate once in its picture", faults)


def variants_of(path, name):
    body = re.search(rf"\benum {name} \{{\n(.*?)\n\}}", text_of(path), re.S)[1]
    return re.findall(r"^    (\w+)", body, re.M)


def rows_of_architecture():
    rows = [line for line in page_of("ARCHITECTURE").split("\n") if line.startswith("|")]
    firsts = [row.split("|")[1].strip() for row in rows]
    counts = re.findall(r'Count::\w+ => "([\w ]+)"', text_of("crates/job_stages/src/refusals.rt"))
    commands = re.findall(r"^    /// `(\w+)`", text_of("crates/run_words/src/verbs.rt"), re.M)
    wanted = [*(f"L{n}" for n in range(1, 15)), *(f"S{n}" for n in range(1, 9)), *(f"`{it}`" for it in commands)]
    faults = [f"no row for {it}" for it in wanted if it not in firsts]
    faults += [f"no row for the limit of {it}" for it in counts if not any(f"`size: {it}`" in first for first in firsts)]
    refusals = variants_of("crates/job_stages/src/refusals.rt", "Refusal")
    faults += [f"no row for the refusal {it}" for it in refusals if not any(f"| `{it}` |" in row for row in rows)]
    if not counts or not commands or not refusals:
        faults.append("the limits, commands or refusals were not found in the code")
    point("docs/develop/ARCHITECTURE.md has a row for each rule, limit, command and refusal", faults)


def edits():
    there = {f"{it.parts[1]} {it.stem}" for it in CRATES.glob("*/must-fail/*.edit")}
    shown, faults = set(), []
    for line in page_of("EDITS").split("\n"):
        names = re.findall(r"`([^`]+)`", line)
        if not line.startswith("| `"):
            continue
        crate, edit = names[:2] if names[0] in crates() else ("job_stages", names[0])
        shown.add(f"{crate} {edit}")
        function, *clause = re.findall(r"`([^`]+)`", line.strip("| ").split("|")[-1])
        if function.split("::")[-1] not in functions_of(crate):
            faults.append(f"{crate} has no function {function}")
        named = "".join(text_of(it) for it in sources(crate, ("src",)))
        lost = [it for it in clause if not re.search(rf"\b(ensures|invariant) {it} \{{", named)]
        faults += [f"{crate} has no clause {it}" for it in lost]
    faults += [f"{it} is on the page or in its folder alone" for it in sorted(there ^ shown)]
    point("docs/trust/EDITS.md has each edit that must be refused, with its function", faults)


if __name__ == "__main__":
    for test in (order_of_crates, table_of_crates, picture_of_crates, rows_of_architecture, edits, named_things):
        test()
