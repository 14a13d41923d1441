"""Pictures of a model as texts for Graphviz's `dot`. Not proved."""
import shutil
import subprocess
from html import escape

import flows
import gates
import model
import program
import runs
import texts
from command import CouldNot, escaped, files_of, options_of, readable

FONT = "Helvetica,Arial,sans-serif"
COLUMNS = 4
HEAD = """digraph "%s" {
  graph [rankdir=LR, fontname="%s", fontsize=13, nodesep=0.12, ranksep=%s, labelloc=t, labeljust=l, label=%s%s]
  node [fontname="%s", fontsize=11, shape=plain]
  edge [fontname="%s", fontsize=10, color="#5b6470", arrowsize=0.6]
"""


class TooMany(CouldNot):
    """The picture has more nodes than were allowed."""


def quoted(text):
    return '"%s"' % text.replace("\\", "\\\\").replace('"', '\\"')


def head(name, title, more="", apart="0.5"):
    return HEAD % (name, FONT, apart, '%s\\n "' % quoted(title)[:-1], more, FONT, FONT)


def table(rows, color):
    """A node's label: rows of (text, bold, port)."""
    cells = "".join('<tr><td align="left"%s>%s&#160;</td></tr>' % (
        ' port="%s"' % p if p else "", "<b>%s</b>" % escape(t) if bold else escape(t)) for t, bold, p in rows)
    return '<<table border="1" cellborder="0" cellspacing="0" cellpadding="3" color="#5b6470" bgcolor="%s">%s</table>>' % (
        color, cells)


def enough(count, most):
    if count > most:
        raise TooMany("%d nodes are more than %d: --most %d draws them" % (count, most, count))


def units(file, words, most):
    """The tree of units: each with its class, its states and its events; aliases with broken lines."""
    source = model.Source(file, words.main)
    source.ask("check")
    tree = source.tree
    enough(len(tree.nodes) + len(tree.aliases), most)
    lines = [head("units", "The units of %s" % readable(file), ", splines=polyline", "0.7")]
    for node in tree.nodes:
        name = node.path.rpartition(".")[2] or node.of
        kind = {"main": "the system", "block": "block", "part": node.of, "clone": "clone of %s" % node.of}[node.kind]
        rows = [(name, True, ""), (kind, False, "")] + things(tree, node)
        lines.append("  %s [label=%s]\n" % (quoted(node.path), table(rows, "#e8f0fa" if node.kind == "main" else "#ffffff")))
        if node.path:
            lines.append(branch(node.path, ""))
    for path, target in tree.aliases:
        rows = [(path.rpartition(".")[2], True, ""), ("alias of %s" % (target or "the system"), False, "")]
        lines.append("  %s [label=%s]\n%s" % (quoted(path), table(rows, "#f5f5f5"), branch(path, ", style=dashed")))
    return "".join(lines) + "}\n"


def start_of(source):
    """The values of variables and observers at the start, none where the flows meet a fault there."""
    try:
        first = runs.start(source)[0]
    except CouldNot:
        return {}
    return {**first.values, **first.observers}


def feeding(file, words, most):
    """Which part feeds which, with the values at the start. Where there are more boxes, units are folded; where there are more
    still, those nearest to the observer are drawn, and the picture says so."""
    source = model.Source(file, words.main)
    system = flows.System(source.flat)
    observer = flows.observer_of(system, source, words.observer)
    drawn, every = flows.nearest(system, observer, most)
    left = "" if len(drawn) == every else ": the %d boxes of %d that are nearest to %s" % (len(drawn), every, observer or "the first one")
    title = "Which part feeds which in %s%s" % (readable(file), left)
    return flows.Drawing(system, "", drawn, observer, start_of(source)).text(True, title)


def branch(path, style):
    return "  %s -> %s:w [arrowhead=none%s]\n" % (quoted(path.rpartition(".")[0]), quoted(path), style)


def things(tree, node):
    """Rows with the states and the events of a unit."""
    states, events = [], []
    for name, kind, member in tree.bodies.names(node.scope.unit):
        if kind == "event":
            events.append(name.text)
        elif kind == "variable" and member.parts[2] and member.parts[2][0].words[0].text == "init":
            states.append(name.text)
    return [(text, False, "") for text in wrapped("states", states) + wrapped("events", events)]


def wrapped(word, names):
    """Names in lines of at most 40 letters."""
    found, line = [], word + " "
    for name in names:
        if len(line) + len(name) > 40 and line.strip() not in (word, ""):
            found.append(line.rstrip())
            line = "  "
        line += name + ", "
    return found + [line.rstrip(", ")] if names else []


def modes(file, words, most):
    """The trees of modes: each state's modes from the initial one on, with the events that enter them."""
    trees = texts.fragment(program.ask("fragment", [file], options_of(words, "--drop", "--main")))
    enough(sum(len(t.edges) + 1 for t in trees), most)
    deep = max(1, -(-len(trees) // COLUMNS))
    lines = [head("modes", "The modes of %s%s" % (readable(file), without(words)), ', pack=14, packmode="array_tu%d"' % deep, "0.35")]
    for number, tree in sorted(enumerate(trees), key=lambda t: upward(t[0], deep, len(trees))):
        lines.append('  subgraph cluster_%d {\n    graph [label=%s, fontsize=12, color="#c4ccd6", margin=6]\n' % (
            number, quoted(tree.variable)))
        lines.append("    %s [label=%s]\n" % (quoted("%d %s" % (number, tree.first)), table(
            [(tree.first, True, ""), ("at first", False, "")], "#e6f3e6")))
        for edge in tree.edges:
            rows = [(edge.to_mode, True, ""), ("by %s" % shorter(edge.label, tree.variable), False, "")]
            entered, left = quoted("%d %s" % (number, edge.to_mode)), quoted("%d %s" % (number, edge.from_mode))
            lines.append("    %s [label=%s]\n    %s:e -> %s:w\n" % (entered, table(rows, "#fdf3e0"), left, entered))
        lines.append("  }\n")
    return "".join(lines) + "}\n"


def upward(number, rows, count):
    """The place of a tree in an array that is filled from the bottom of each column, so that it reads from the top."""
    begin = number // rows * rows
    return begin + min(begin + rows, count) - 1 - number


def shorter(label, variable):
    """A label without the unit that it shares with its state."""
    unit = variable.rpartition(".")[0]
    return label[len(unit) + 1:] if unit and label.startswith(unit + ".") else label


def without(words):
    dropped = words.drop or ""
    return "" if not dropped else " without %s" % (dropped.replace(",", ", ") if len(dropped) < 80 else
                                                    "%d events" % (dropped.count(",") + 1))


def observed(words):
    value = "true" if words.value is None else words.value
    name = words.observer
    return name if value == "true" else "not %s" % name if value == "false" else "%s = %s" % (name, value)


def observer_gates(file, words, most):
    """The gates of an observer, each once, equal ones as one, with its events in it; those of a conflict apart."""
    asked = options_of(words, "--observer", "--value", "--drop", "--main")
    trees = texts.fragment(program.ask("fragment", [file], options_of(words, "--drop", "--main")))
    equations = texts.equations(program.ask("equations", [file], asked))
    enough(len(equations.gates) // 200, most)
    smaller = gates.Smaller(equations, trees)
    roots = [("top", observed(words), smaller.top)]
    conflict = [("conflict", "conflict", smaller.conflict)] if meets_conflict(file, smaller, words) else []
    tops = smaller.order(smaller.top)
    apart = [n for n in smaller.order(smaller.conflict) if n not in set(tops)] if conflict else []
    enough(len(tops) + len(apart) + 2, most)
    names = {number: "gate %d" % (place + 1) for place, number in enumerate(tops + apart)}
    left = "" if smaller.is_all_seen or not trees else "; some of their operands may change nothing"
    lines = [head("gates", "The gates of %s in %s%s%s" % (observed(words), readable(file), without(words), left), ", ordering=out", "0.6")]
    lines += [root(smaller, names, *r) for r in roots] + [gate(smaller, names, n) for n in tops]
    if conflict:
        lines.append('  subgraph cluster_conflict {\n    graph [label="where flows contradict each other", color="#c08080"]\n')
        drawn = [root(smaller, names, *r) for r in conflict] + [gate(smaller, names, n) for n in apart]
        nodes = "".join(drawn).splitlines(True)
        lines += [l for l in nodes if " -> " not in l] + ["  }\n"] + [l for l in nodes if " -> " in l]
    return "".join(lines) + "}\n"


def meets_conflict(file, smaller, words):
    """Whether some set of events that can be fired meets a conflict, or that is not known."""
    if smaller.conflict == (False, False):
        return False
    options = options_of(words, "--observer", "--value", "--nodes", "--drop", "--main")
    return program.run(["cuts", *options, *files_of(file)])[0] != 0


def root(smaller, names, node, label, operand):
    text = [(label, True, "")]
    if not smaller.is_gate(operand):
        text.append((constant_or_event(operand), False, ""))
        return "  %s [label=%s]\n" % (node, table(text, "#f7dede"))
    return "  %s [label=%s]\n%s" % (node, table(text, "#f7dede"), arrow(names, node, operand))


def constant_or_event(operand):
    negated, what = operand
    if isinstance(what, bool):
        return "always" if what != negated else "never"
    return "not %s" % what if negated else what


def gate(smaller, names, number):
    sign, operands = smaller.gates[number]
    rows, arrows = [("%s  (%s)" % ("all of" if sign == "&" else "any of", names[number]), True, "")], []
    for place, operand in enumerate(operands):
        if smaller.is_gate(operand):
            rows.append(("%s%s" % ("not " if operand[0] else "", names[operand[1]]), False, "p%d" % place))
            arrows.append(arrow(names, '%s:p%d:e' % (quoted(names[number]), place), operand))
        else:
            rows.append((constant_or_event(operand), False, ""))
    label = table(rows, "#e8f0fa" if sign == "&" else "#fdf3e0")
    return "  %s [label=%s]\n%s" % (quoted(names[number]), label, "".join(arrows))


def arrow(names, node, operand):
    return "  %s -> %s%s\n" % (node, quoted(names[operand[1]]), " [arrowhead=odot]" if operand[0] else "")


def svg(text):
    """The picture of a text for dot, or None where there is no dot."""
    if not shutil.which("dot"):
        return None
    done = subprocess.run(["dot", "-Tsvg"], input=text.encode("latin-1"), stdout=subprocess.PIPE, stderr=subprocess.PIPE, check=False)
    if done.returncode:
        raise CouldNot("dot: %s" % escaped(done.stderr.decode("latin-1").strip()[:200]))
    return done.stdout.decode("utf-8")
