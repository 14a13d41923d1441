"""Which part feeds which, as a text for Graphviz's `dot`: units nested, their states, flows and events as rows, and an arrow
from each variable that an assignment reads to the one that it sets. Read from what `flat` writes. Not proved.

For a page that puts the values in, the rows have identities and links: `nI` and `vI` for the name and the value of variable I,
`fK` for way K, `uI` for unit I, `top` for the observer; an arrow that begins at variable I has the class `sI`. For paper they
have values and no links.
"""
from collections import deque, namedtuple
from html import escape

import texts
from command import CouldNot, shown

FONT = "Helvetica,Arial,sans-serif"
HEAD = """digraph flows {
  graph [rankdir=%s, fontname="%s", fontsize=11, nodesep=0.14, ranksep=0.45, bgcolor="transparent", labeljust=l%s]
  node [fontname="%s", fontsize=11, shape=plain]
  edge [arrowsize=0.5, color="#5b6470"]
"""
MOST_ROWS = 14
"""The most variables, and the most events, that a box shows."""
MOST_BOXES = 160
MOST_ARROWS = 1200
"""Where there are more, arrows lead from box to box and not from row to row."""
MOST_OUTSIDE = 60
"""The most variables of other units that are drawn beside a unit."""
SYSTEM = "the system"

Box = namedtuple("Box", "name unit title kind variables ways inner")
"""A node: the unit in which it is, what its head says, `leaf`, `own`, `flow` or `folded`, its rows, and the units in it."""


class System:
    """The units, variables and readers of a flat system."""

    def __init__(self, flat):
        self.flat = flat
        self.paths = list(flat.variables)
        self.index = {path: number for number, path in enumerate(self.paths)}
        self.labels = labels(flat)
        self.units, self.children = [""], {"": []}
        for path in self.paths + [way.event for way in flat.ways]:
            self.add(unit_of(path))
        self.number = {unit: number for number, unit in enumerate(self.units)}
        self.variables, self.ways = {unit: [] for unit in self.units}, {unit: [] for unit in self.units}
        for number, path in enumerate(self.paths):
            self.variables[unit_of(path)].append(number)
        for number, way in enumerate(flat.ways):
            self.ways[unit_of(way.event)].append(number)
        self.reads = list(dict.fromkeys((source, self.index[one.set.target]) for one in flat.asserts for source in self.read_by(one.set)))

    def add(self, unit):
        """Adds a unit and those above it."""
        if unit in self.children:
            return
        above = unit_of(unit)
        self.add(above)
        self.children[above].append(unit)
        self.children[unit] = []
        self.units.append(unit)

    def inside(self, unit):
        """The unit and all units in it."""
        todo, found = [unit], []
        while todo:
            one = todo.pop()
            found.append(one)
            todo += self.children[one]
        return found

    def named(self, *expressions):
        """The numbers of the variables that expressions name."""
        names = set().union(*map(texts.words, expressions))
        return [self.index[name] for name in sorted(names) if name in self.index]

    def read_by(self, one):
        """The variables that an assignment reads."""
        return self.named(one.value, *(condition for condition, _ in one.conditions))

    def read_by_observer(self, path):
        return next((self.named(one.value) for one in self.flat.observers if one.path == path), [])

    def is_state(self, number):
        return self.flat.variables[self.paths[number]].state


def observer_of(system, source, name):
    """The path of an observer that is asked for, `` where none is; CouldNot where there is no such one."""
    paths = [one.path for one in system.flat.observers]
    path = name if name is None or name in paths else source.tree.canonical(name)
    if path is not None and path not in paths:
        raise CouldNot("there is no observer %s" % shown(path))
    return path or ""


def unit_of(path):
    return path.rpartition(".")[0]


def last_of(path):
    return path.rpartition(".")[2]


def labels(flat):
    """The label of each way as a script has it: with its number only where the event has several."""
    many = {}
    for way in flat.ways:
        many[way.event] = many.get(way.event, 0) + 1
    return [way.event if many[way.event] == 1 else "%s#%d" % (way.event, way.number) for way in flat.ways]


def boxes(system, root, folded):
    """The boxes of a unit: a unit without units in it is one; of another each flow is one, and its states with its events."""
    found, todo = [], [root]
    while todo:
        unit = todo.pop()
        if unit != root and unit in folded:
            found.append(folded_box(system, unit))
        elif unit and not system.children[unit]:
            found.append(Box("b%d" % system.number[unit], unit_of(unit), last_of(unit), "leaf", system.variables[unit], system.ways[unit], [unit]))
        else:
            found += open_boxes(system, unit)
            todo += reversed(system.children[unit])
    return found


def folded_box(system, unit):
    """A unit with all that is in it as one box, with its own flows."""
    own = [variable for variable in system.variables[unit] if not system.is_state(variable)]
    return Box("b%d" % system.number[unit], unit_of(unit), last_of(unit), "folded", own, [], system.inside(unit))


def open_boxes(system, unit):
    """The boxes of what a unit has besides its units."""
    states = [variable for variable in system.variables[unit] if system.is_state(variable)]
    flows = [variable for variable in system.variables[unit] if not system.is_state(variable)]
    own = Box("b%d" % system.number[unit], unit, last_of(unit) or SYSTEM, "own", states, system.ways[unit], [])
    return ([own] if states or own.ways else []) + [Box("w%d" % flow, unit, "", "flow", [flow], [], []) for flow in flows]


def place_of(system, drawn):
    """The box of each variable."""
    places = {}
    for box in drawn:
        for variable in [one for unit in box.inner for one in system.variables[unit]] + box.variables:
            places[variable] = box
    return places


def around(system, drawn, centre, most):
    """The boxes nearest to some variables, along what feeds and what is fed, at most so many."""
    places, beside = place_of(system, drawn), {}
    for source, target in system.reads:
        if source in places and target in places:
            beside.setdefault(places[target].name, []).append(places[source].name)
            beside.setdefault(places[source].name, []).append(places[target].name)
    names = list(dict.fromkeys(places[one].name for one in centre if one in places)) or [drawn[0].name]
    seen, todo = set(names[:most]), deque(names[:most])
    while todo and len(seen) < most:
        for name in beside.get(todo.popleft(), []):
            if name not in seen and len(seen) < most:
                seen.add(name)
                todo.append(name)
    return [box for box in drawn if box.name in seen]


def fold(system, root, opened, most):
    """The units to fold so that there are at most so many boxes: those of one depth and below, none that is asked to be open."""
    inner = [unit for unit in system.inside(root) if system.children[unit] and unit != root and unit not in opened]
    folded = set()
    for depth in sorted({unit.count(".") for unit in inner}, reverse=True):
        if len(boxes(system, root, folded)) <= most:
            break
        folded = {unit for unit in inner if unit.count(".") >= depth}
    return folded


class Drawing:
    """The text for dot of some boxes; with values, a map by path, it is for paper."""

    def __init__(self, system, root, drawn, observer="", values=None):
        self.system, self.root, self.drawn, self.observer, self.values = system, root, drawn, observer, values
        self.places = place_of(system, drawn)
        self.wanted = [one for one in system.read_by_observer(observer) if one in self.places] if root == "" else []
        self.in_unit = {}
        for box in drawn:
            self.in_unit.setdefault(box.unit, []).append(box)

    def text(self, across, title=""):
        more = ', labelloc=t, label="%s\\n "' % title.replace("\\", "\\\\").replace('"', '\\"') if title else ""
        lines = [HEAD % ("LR" if across else "TB", FONT, more, FONT)]
        if self.root and self.in_unit.get(unit_of(self.root)):
            self.in_unit.setdefault(self.root, []).extend(self.in_unit[unit_of(self.root)])
        self.nest(self.root, lines, "  ")
        return "".join([*lines, *self.arrows(), *self.outside(), *self.top(), "}\n"])

    # The boxes.

    def has(self, unit):
        return unit in self.in_unit or any(map(self.has, self.system.children[unit]))

    def nest(self, unit, lines, pad):
        """The boxes of a unit, in a frame with those of the units in it."""
        is_framed = unit not in ("", self.root)
        if is_framed:
            number = self.system.number[unit]
            link = ', id="c%d", href="#u%d"' % (number, number) if self.values is None else ""
            lines.append('%ssubgraph cluster_%d {\n%s  graph [class="unit"%s, label="%s", margin=7, color="#c4ccd6"]\n' % (
                pad, number, pad, link, last_of(unit)))
        for box in self.in_unit.get(unit, []):
            lines.append('%s  %s [class="%s", label=<%s>]\n' % (pad, box.name, box.kind, self.rows(box)))
        for child in self.system.children[unit]:
            if self.has(child):
                self.nest(child, lines, pad + "  ")
        if is_framed:
            lines.append(pad + "}\n")

    def rows(self, box):
        found = [] if box.kind == "flow" else [self.head(box)]
        found += [self.value_row(variable, last_of(self.system.paths[variable])) for variable in box.variables[:MOST_ROWS]]
        ways = [way for way in box.ways if not self.system.flat.ways[way].hidden]
        found += map(self.event_row, ways[:MOST_ROWS])
        left = len(box.variables[MOST_ROWS:]) + len(ways[MOST_ROWS:])
        return table(found + (['<tr><td colspan="2" align="left">%d more</td></tr>' % left] if left else []))

    def head(self, box):
        """The row with the name of a unit; behind that of a folded one how many units are in it."""
        number = int(box.name[1:])
        text = box.title + (" +%d" % (len(box.inner) - 1) if box.kind == "folded" else "")
        return '<tr><td colspan="2" align="left"%s bgcolor="#eef2f6"><b>%s</b>&#160;</td></tr>' % (
            self.link("u%d" % number, "u%d" % number, self.system.units[number] or SYSTEM), escape(text))

    def event_row(self, way):
        label = self.system.labels[way]
        return '<tr><td colspan="2" align="left"%s bgcolor="#ffffff">&#9656; %s&#160;</td></tr>' % (
            self.link("f%d" % way, "f%d" % way, "fire " + label), escape(last_of(label)))

    def value_row(self, variable, name):
        path, link = self.system.paths[variable], "v%d" % variable
        return ('<tr><td align="left" port="p%d"%s bgcolor="#ffffff">%s&#160;</td>'
                '<td align="left" port="q%d"%s bgcolor="#ffffff">%s&#160;</td></tr>' % (
                    variable, self.link("n%d" % variable, link, path), escape(name),
                    variable, self.link(link, link, path), escape(self.value_of(path))))

    def value_of(self, path):
        """The value that is shown, or the widest one where the page puts the values in."""
        if self.values is not None:
            return self.values.get(path, "")
        return widest(self.system.flat.variables[path].domain)

    def link(self, identity, target, title):
        if self.values is not None:
            return ""
        return ' id="%s" href="#%s" title="%s"' % (identity, target, escape(title))

    # The arrows.

    def arrows(self):
        """An arrow for each variable that is read in another box."""
        is_plain, found = len(self.system.reads) > MOST_ARROWS, {}
        for source, target in self.system.reads:
            one, other = self.places.get(source), self.places.get(target)
            if one and other and one is not other:
                ends = (one.name, other.name) if is_plain else (port(one, source), port(other, target))
                found.setdefault(ends, source)
        return [self.arrow(out(one), other, source) for (one, other), source in found.items()]

    def arrow(self, begin, end, source):
        return "  %s -> %s%s\n" % (begin, end, ' [class="s%d"]' % source if self.values is None else "")

    def outside(self):
        """What the boxes of a unit read of other units, beside them."""
        found = {}
        for source, target in self.system.reads if self.root else ():
            if source not in self.places and target in self.places:
                found.setdefault(source, []).append(port(self.places[target], target))
        for source, targets in list(found.items())[:MOST_OUTSIDE]:
            yield '  o%d [class="outside", label=<%s>]\n' % (source, table([self.value_row(source, self.system.paths[source])]))
            yield from (self.arrow("o%d" % source, target, source) for target in dict.fromkeys(targets))

    def top(self):
        """The observer, behind all that it reads."""
        if not self.wanted:
            return
        name = escape(self.observer)
        value = self.values.get(self.observer, "") if self.values is not None else "false"
        cells = ['<td align="left" port="p"%s bgcolor="#ffffff"><b>%s</b>&#160;</td>' % (self.link("top", "top", self.observer), name),
                 '<td align="left"%s bgcolor="#ffffff">%s&#160;</td>' % (self.link("topvalue", "top", self.observer), escape(value))]
        yield '  top [class="observer", label=<%s>]\n' % table(["<tr>%s</tr>" % "".join(cells)])
        yield from (self.arrow(out(port(self.places[one], one)), "top:p:w", one) for one in self.wanted)


def table(rows):
    return '<table border="1" cellborder="0" cellspacing="0" cellpadding="3" color="#5b6470">%s</table>' % "".join(rows)


def out(place):
    """Where an arrow leaves: at the value, to the right of the name where it enters."""
    return place.replace(":p", ":q") + ":e" if ":" in place else place


def port(box, variable):
    return "%s:p%d" % (box.name, variable) if variable in box.variables[:MOST_ROWS] else box.name


def widest(domain):
    """The longest value of a domain as the flat text writes it."""
    values = ["false"] if domain == "Boolean" else domain[1:-1].split(", ")
    return max(values, key=len)


def picture(system, observer="", root="", opened=(), closed=(), centre=None, most=MOST_BOXES, across=True):
    """The picture of a unit for a page: the text for dot, how many boxes are drawn, and how many there are."""
    folded = fold(system, root, set(opened), most) | set(closed) & set(system.units)
    every = boxes(system, root, folded)
    near = [centre] if centre is not None else system.read_by_observer(observer)
    drawn = every if len(every) <= most else around(system, every, near, most)
    return Drawing(system, root, drawn, observer).text(across), len(drawn), len(every)


def nearest(system, observer, most):
    """The boxes of the whole system that are drawn on paper, and how many there are: those nearest to an observer."""
    every = boxes(system, "", fold(system, "", set(), most))
    return every if len(every) <= most else around(system, every, system.read_by_observer(observer), most), len(every)
