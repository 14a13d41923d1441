"""The texts that the program writes, read back for the helpers beside it. Not proved."""
import re
from collections import namedtuple

Variable = namedtuple("Variable", "path state domain value")
Set = namedtuple("Set", "target value conditions")
"""An assignment; conditions are (expression, whether it must be true), the outermost first."""
Way = namedtuple("Way", "event number hidden guard sets parts")
"""A local way has a guard and sets; a synchronised one has parts (mark, event, number) and guard None."""
Assert = namedtuple("Assert", "number line column set")
Observer = namedtuple("Observer", "path value")
Flat = namedtuple("Flat", "variables ways asserts observers")
Tree = namedtuple("Tree", "variable first edges")
Edge = namedtuple("Edge", "from_mode label to_mode")
Equations = namedtuple("Equations", "gates conflict top")
"""gates is a list of (`&` or `|`, operands); an operand is `true`, `false`, or (negated, event path or gate number)."""

WORD = re.compile(r"(?<![\w.'])[A-Za-z_][A-Za-z0-9_]*(?:\.[A-Za-z_][A-Za-z0-9_]*)*")


def outside_brackets(text, pieces):
    """Splits text at each of the pieces that stands in no brackets: [(piece before, or ``, text)]."""
    found, depth, begin, at, before = [], 0, 0, 0, ""
    while at < len(text):
        piece = next((p for p in pieces if not depth and text.startswith(p, at)), None)
        if piece:
            found.append((before, text[begin:at]))
            before, at = piece, at + len(piece)
            begin = at
            continue
        depth += {"(": 1, "{": 1, ")": -1, "}": -1}.get(text[at], 0)
        at += 1
    return found + [(before, text[begin:])]


def words(text):
    """All paths, words and symbols that an expression names."""
    return set(WORD.findall(text))


def _set(text):
    head, *conditions = outside_brackets(text, (" when ", " unless "))
    target, value = head[1].split(" := ", 1)
    return Set(target, value, [(expr, before == " when ") for before, expr in conditions])


def _sets(text):
    return [] if text == "skip" else [_set(piece) for _, piece in outside_brackets(text, (", ",))]


def _way(line):
    hidden = line.startswith("hidden ")
    label, body = line[11 if hidden else 4:].split(": ", 1)
    event, number = label.split("#")
    if body[0] in "!?":
        parts = [(p[0], *p[1:].split("#")) for p in body.split(" & ")]
        return Way(event, int(number), hidden, None, [], [(m, e, int(n)) for m, e, n in parts])
    guard, sets = body.split(" -> ", 1)
    return Way(event, int(number), hidden, guard, _sets(sets), [])


def flat(text):
    found = Flat({}, [], [], [])
    for line in text.splitlines():
        word, rest = line.split(" ", 1)
        if word in ("state", "flow"):
            path, rest = rest.split(" ", 1)
            domain, value = rest.rsplit(" = ", 1)
            found.variables[path] = Variable(path, word == "state", domain, value)
        elif word in ("way", "hidden"):
            found.ways.append(_way(line))
        elif word == "assert":
            number, place, rest = re.match(r"([0-9]+) at ([0-9]+:[0-9]+) (.*)", rest).groups()
            row, column = place.split(":")
            found.asserts.append(Assert(int(number), int(row), int(column), _set(rest)))
        elif word == "observer":
            found.observers.append(Observer(*rest.split(" = ", 1)))
    return found


def values_of(domain):
    """The values of a domain as the flat text writes it."""
    if domain == "Boolean":
        return ["false", "true"]
    if domain.startswith("{"):
        return domain[1:-1].split(", ")
    low, high = domain[1:-1].split(", ")
    return [str(v) for v in range(int(low), int(high) + 1)]


def fragment(text):
    trees = []
    for line in text.splitlines():
        if line.startswith("tree "):
            path, first = line[5:].split(" at ")
            trees.append(Tree(path, first, []))
        elif line.startswith("  "):
            trees[-1].edges.append(Edge(*line[2:].split(" ")))
    return trees


def _operand(text):
    if text in ("true", "false"):
        return text
    negated = text.startswith("-")
    text = text[negated:]
    return (negated, text[2:] if text.startswith("e.") else int(text[1:]))


def equations(text):
    gates, last = [], {}
    for line in text.splitlines():
        name, body = line[:-1].split(" := ", 1)
        if name in ("conflict", "top"):
            last[name] = _operand(body)
        else:
            sign = "&" if " & " in body else "|"
            gates.append((sign, [_operand(o) for o in body.split(" %s " % sign)]))
    return Equations(gates, last["conflict"], last["top"])


def event_of(label):
    """The event's path of a label, which may have the number of a way."""
    return label.split("#", 1)[0]


def labels(line):
    """The labels of a line as `cuts` writes it, in their order."""
    inner = line[line.index("{") + 1:line.rindex("}")]
    return [label.strip() for label in inner.split(",") if label.strip()]


def cuts(text):
    return [labels(line) for line in text.splitlines() if line.startswith("{")]


def modules(text):
    """The modules with their sets, and the short forms, as (modules, forms)."""
    found, forms = [], []
    for line in text.splitlines():
        if line.startswith("module "):
            found.append((line[7:], []))
        elif line.startswith("  {"):
            found[-1][1].append(labels(line))
        elif line.startswith("{"):
            forms.append(labels(line))
    return found, forms


def parents(trees):
    """For each event that has an edge: the event before it on its path, or None, and its tree."""
    found = {}
    for tree in trees:
        entered = {}
        for edge in tree.edges:
            event = event_of(edge.label)
            found[event] = (entered.get(edge.from_mode), tree)
            entered[edge.to_mode] = event
    return found
