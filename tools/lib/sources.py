"""What the sources say of themselves: their crates, the comments of definitions, and the public functions with their comments and
the names of their clauses. Not proved: it reads texts."""
import pathlib
import re
from collections import namedtuple

Function = namedtuple("Function", "crate module owner name doc clauses is_law file")
"""A public function: the module that it is called by, `` where it is called by the crate; the type or trait that has it, or ``; the lines of its
comment; the names of its clauses; whether it computes nothing, so that its clauses are laws."""
HEAD = re.compile(r"^(?P<doc>(?:[ \t]*///.*\n)*)(?P<marks>(?:[ \t]*#\[.*\n)*)(?P<indent>[ \t]*)(?P<public>pub )?(?:const )?fn (?P<name>\w+)", re.M)
OWNER = re.compile(r"^(?:pub )?(?P<kind>impl|trait)\b(?:<[^{>]*>)? (?P<names>[^{]*)\{", re.M)
CLAUSE = re.compile(r"\bensures (\w+) \{")
NAMED = re.compile(r"^pub use (\w+(?:::\w+)*)::(?:\{([^}]*)\}|(\w+|\*));", re.M)


def blanked(text):
    """The text with what is in comments, strings and letters as blanks, so that braces can be counted."""
    pattern = r'//[^\n]*|"(?:\\.|[^"\\])*"|b?\'(?:\\.|[^\'\\])\''
    return re.sub(pattern, lambda found: " " * len(found[0]), text, flags=re.S)


def passes(top):
    """The headings of crates.txt with their crates."""
    found = []
    for line in (top / "crates.txt").read_text(encoding="utf-8").split("\n")[1:]:
        if line.startswith("# "):
            found.append((line[2:], []))
        elif line:
            found[-1][1].append(line.partition(":")[0])
    return found


def comments(path):
    """The words above each name of a file of definitions, by that name, and those above all."""
    found, above, first = {}, [], None
    for line in path.read_text(encoding="utf-8").split("\n"):
        said = re.match(r"\s*-- ?(.*)", line)
        if said:
            above.append(said[1])
            continue
        if first is None:
            first = " ".join(above)
            above = []
        name = re.match(r"(?:\s{2})?(?:abbrev |unfoldable |data |record )?(?:pub )?(?:data |record |abbrev )?([^\s:({]+)", line)
        if above and name and line.strip():
            found.setdefault(name[1], " ".join(above))
        above = []
    return first or "", found


def end_of(text, at):
    """The place behind the brace that closes the one at this place."""
    depth = 0
    for place in range(at, len(text)):
        depth += {"{": 1, "}": -1}.get(text[place], 0)
        if depth == 0:
            return place + 1
    return len(text)


def body_of(plain, at):
    """The body behind the head at this place: its text between the braces, or None where there is none; and the clauses before it."""
    start, depth, in_clause = at, 0, False
    while start < len(plain):
        sign = plain[start]
        if depth == 0 and re.match(r"(?:requires|ensures|ghost)\b", plain[start:start + 9]):
            in_clause = True
        if sign == ";" and depth == 0:
            return None, plain[at:start]
        if sign == "{":
            end = end_of(plain, start)
            if not in_clause:
                return plain[start + 1:end - 1], plain[at:start]
            start, in_clause = end, False
            continue
        depth += {"(": 1, "[": 1, ")": -1, "]": -1}.get(sign, 0)
        start += 1
    return None, plain[at:]


def is_public_type(crate_text, owner):
    return any(owner in re.split(r"[,\s]+", names or one or "") for _, names, one in NAMED.findall(crate_text))


def owners(plain):
    """Of each `impl` and `trait` of a file: where it begins and ends, the type, and whether its functions are public by the trait."""
    for found in OWNER.finditer(plain):
        names = re.sub(r"<[^{}]*?>", "", found["names"]).strip()
        trait, has_trait, kind = names.partition(" for ")
        owner = (kind if has_trait else trait).split("where")[0].strip().split("<")[0]
        yield found.start(), end_of(plain, found.end() - 1), owner, found["kind"] == "trait"


def functions_of_file(crate, path, crate_text):
    """The public functions of a file, in order."""
    text = path.read_text(encoding="utf-8")
    plain = blanked(text)
    ranges = [*owners(plain)]
    module = path.relative_to(path.parents[len(path.parts) - path.parts.index("src") - 2]).with_suffix("").as_posix()
    names_of_module = {name.strip() for where, names, one in NAMED.findall(crate_text) if where.replace("::", "/") == module
                       for name in [*(names or "").split(","), one]}
    is_open = module == "lib" or re.search(r"^pub mod %s;" % module.split("/")[0], crate_text, re.M) is not None or "*" in names_of_module
    for head in HEAD.finditer(text):
        owner = next((it for it in ranges if it[0] < head.start("name") < it[1]), None)
        by_trait = owner and owner[3]
        if not head["public"] and not by_trait:
            continue
        is_seen = is_open or head["name"] in names_of_module or (owner and (owner[2] in names_of_module or is_public_type(crate_text, owner[2])))
        if not is_seen or (head["indent"] and not owner):
            continue
        body, clauses = body_of(plain, head.end())
        named = head["name"] in names_of_module or owner or module == "lib"
        doc = [line.strip()[3:].removeprefix(" ") for line in head["doc"].split("\n") if line.strip()]
        returns = "->" in clauses.split("ensures")[0].split("requires")[0]
        calls_alone = body is not None and re.fullmatch(r"(?:\s*[\w:]+(?:::<[^;]*>)?\([^;]*\);)*\s*", body) is not None
        is_law = not returns and calls_alone and "&mut" not in clauses.split("ensures")[0] and not owner and bool(CLAUSE.search(clauses))
        yield Function(crate, "" if named else module.replace("/", "::"), owner[2] if owner else "", head["name"], doc, CLAUSE.findall(clauses), is_law, path)


def functions(top, crate):
    """The public functions of a crate, file by file."""
    folder = top / "crates" / crate / "src"
    lib = folder / "lib.rt"
    if not lib.exists():
        return
    crate_text = lib.read_text(encoding="utf-8")
    for path in sorted(folder.glob("**/*.rt")):
        yield from functions_of_file(crate, path, crate_text)


def job_of(top, crate):
    """The first comment of a crate: its job in words."""
    for name in ("lib.rt", "main.rt"):
        path = top / "crates" / crate / "src" / name
        if path.exists():
            lines = []
            for line in path.read_text(encoding="utf-8").split("\n"):
                if not line.startswith("//!") or (line.strip() == "//!" and lines):
                    break
                lines.append(line[3:].strip())
            return " ".join(lines)
    return ""


def here():
    """The top of the repository."""
    return pathlib.Path(__file__).resolve().parents[2]
