"""The units of a model and what paths name in them, for the helpers beside the program. Not proved.

A scope is a body with the scope that it stands in: a block has its owner; of a class the owner is not known until it
is used. `Tree` gives each unit of the main block with its path, as the program numbers them.
"""
from collections import namedtuple

from grammar import Domain, Unit

MOST_UNITS = 16384
MOST_DEPTH = 64

Scope = namedtuple("Scope", "unit owner")
Found = namedtuple("Found", "kind member scope")
"""What a name is: kind is `unit` (with its scope), `variable`, `parameter`, `event`, `observer` or `kept`."""


class Unknown(Exception):
    """What a name is cannot be said from the text alone."""


class Missing(Exception):
    """A path ends here: `name` is no member of the unit `where`, or is one of another kind."""

    def __init__(self, name, where, number, found=None):
        super().__init__(name)
        self.name, self.where, self.number, self.found = name, where, number, found


class Bodies:
    """The top-level items of a model by name."""

    def __init__(self, items, main=None):
        self.items = items
        self.domains = {i.name.text: i for i in items if isinstance(i, Domain)}
        self.units = {i.name.text: i for i in items if isinstance(i, Unit)}
        self.classes = {n: u for n, u in self.units.items() if u.kind == "class"}
        blocks = [i for i in items if isinstance(i, Unit) and i.kind == "block"]
        named = [b for b in blocks if main in (None, b.name.text)]
        self.main = named[-1] if named else None
        self.symbols = {s.text for d in self.domains.values() for s in d.symbols or ()}
        self.index = {}

    def members(self, unit, seen=()):
        """The members of a body, inherited ones first."""
        if any(u is unit for u in seen):
            raise Unknown()
        for member in unit.members:
            if member.kind == "extends":
                base = self.classes.get(member.name.text)
                if base:
                    yield from self.members(base, (*seen, unit))
            else:
                yield member

    def bases(self, unit):
        """The classes that a body extends, and those that they extend."""
        found, todo = [], [unit]
        while todo:
            for member in todo.pop().members:
                base = self.classes.get(member.name.text) if member.kind == "extends" else None
                if base is not None and not any(it is base for it in found):
                    found.append(base)
                    todo.append(base)
        return found

    def names(self, unit):
        """Each name of a body with its member and kind, in order."""
        for member in self.members(unit):
            if member.kind == "variables":
                kind = "unit" if member.parts[0].text in self.classes else "variable"
                for name in member.parts[1]:
                    yield name, kind, member
            elif member.kind in ("block", "clones", "embeds"):
                yield member.name, "unit", member
            elif member.kind in ("parameter", "kept", "event", "observer"):
                yield member.name, member.kind, member

    def find(self, scope, name):
        """The kind and the member of a name of a unit, or None."""
        known = self.index.get(id(scope.unit))
        if known is None:
            known = self.index[id(scope.unit)] = {}
            for token, kind, member in self.names(scope.unit):
                known.setdefault(token.text, (kind, member))
        return known.get(name)

    def inner(self, scope, name, member, seen=()):
        """The scope of the unit that a member makes or names."""
        if member.kind == "variables":
            return Scope(self.classes[member.parts[0].text], scope)
        if member.kind == "block":
            return Scope(member.parts[0], scope)
        if len(seen) > MOST_DEPTH:
            raise Unknown()
        target = self.unit(scope, member.parts[0], (*seen, member))
        return target if member.kind == "embeds" else Scope(target.unit, scope)

    def start(self, scope, path):
        if path.start == "main":
            return Scope(self.main, None)
        if path.start == "owner":
            if scope.owner is None:
                raise Unknown()
            return scope.owner
        return scope

    def step(self, scope, path, number, seen=()):
        name = path.names[number].text
        found = self.find(scope, name)
        if not found or found[0] != "unit":
            raise Missing(name, scope, number, found)
        return self.inner(scope, name, found[1], seen)

    def unit(self, scope, path, seen=()):
        at = self.start(scope, path)
        for number in range(len(path.names)):
            at = self.step(at, path, number, seen)
        return at

    def thing(self, scope, path):
        """What a path names: its kind, member and the scope of its unit; Missing where a name is no member."""
        at = self.start(scope, path)
        for number in range(len(path.names) - 1):
            at = self.step(at, path, number)
        name = path.names[-1].text
        found = self.find(at, name)
        if not found:
            raise Missing(name, at, len(path.names) - 1)
        return Found(found[0], found[1], at)

    def scopes(self):
        """Each body of the text with its scope, in the order of the text."""
        for item in self.items:
            if isinstance(item, Unit):
                yield from self._inside(Scope(item, None))

    def _inside(self, scope):
        yield scope
        for member in scope.unit.members:
            if member.kind == "block":
                yield from self._inside(Scope(member.parts[0], scope))


Node = namedtuple("Node", "path kind of scope")
"""A unit: kind is `main`, `block`, `part`, `clone` or `alias`; `of` is its class, or the path of what it copies or is."""


class Tree:
    """The units of the main block, depth first, and the paths of their events and variables."""

    def __init__(self, bodies):
        self.bodies, self.nodes, self.aliases = bodies, [], []
        self._add("", "main", bodies.main.name.text, Scope(bodies.main, None), 1)
        self.places = {}
        for node in self.nodes:
            self._things(node)

    def _add(self, path, kind, of, scope, depth):
        if len(self.nodes) >= MOST_UNITS or depth > MOST_DEPTH:
            raise Unknown()
        self.nodes.append(Node(path, kind, of, scope))
        for name, what, member in self.bodies.names(scope.unit):
            if what != "unit":
                continue
            inner = path + "." + name.text if path else name.text
            if member.kind == "embeds":
                self.aliases.append((inner, self._alias(path, member)))
                continue
            kind, of = {"variables": lambda: ("part", member.parts[0].text), "block": lambda: ("block", None),
                        "clones": lambda: ("clone", written(member.parts[0]))}[member.kind]()
            self._add(inner, kind, of, self.bodies.inner(scope, name.text, member), depth + 1)

    def _alias(self, path, member):
        start = member.parts[0].start
        words = path.split(".") if path else []
        words = words[:-1] if start == "owner" else [] if start == "main" else words
        return ".".join(words + [n.text for n in member.parts[0].names])

    def _things(self, node):
        for name, kind, member in self.bodies.names(node.scope.unit):
            if kind in ("variable", "event", "observer"):
                path = node.path + "." + name.text if node.path else name.text
                self.places[path] = (kind, name, member)

    def of_kind(self, kind):
        return [path for path, found in self.places.items() if found[0] == kind]

    def canonical(self, path):
        """The path with each alias that it goes through followed."""
        aliases = dict(self.aliases)
        for _ in range(MOST_DEPTH * 2):
            words = path.split(".")
            for count in range(1, len(words) + 1):
                target = aliases.get(".".join(words[:count]))
                if target is not None:
                    path = ".".join([target] + words[count:]) if target else ".".join(words[count:])
                    break
            else:
                return path
        raise Unknown()


def written(path):
    return ".".join(([path.start] if path.start else []) + [n.text for n in path.names])
