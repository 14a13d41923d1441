"""Symbols of the flat text that have the name of a variable of the main block. Not proved.

The flat text writes both by that name alone. In the source a unit knows the variable by a path, or is the main block itself:
there the name is the variable. Elsewhere it is the symbol. Where an expression of one unit has both, the types decide: a
symbol stands beside symbols. `told_apart` puts `'` before each such symbol.
"""
import bisect
import re

import expressions
import texts
from hierarchy import Missing, Unknown

REMARK = re.compile(r"//[^\n]*|/\*.*?\*/", re.S)
DOMAIN = re.compile(r"\bdomain\b[^{}]*\{([^}]*)\}")
NAME = re.compile(r"[A-Za-z_]\w*")


def told_apart(flat, source):
    """The flat system with `'` before each symbol that has the name of a variable; the source is read for that alone."""
    own = {path for path in flat.variables if "." not in path}
    if not own & set(NAME.findall(" ".join(DOMAIN.findall(REMARK.sub(" ", source.text))))):
        return flat
    shared = own & source.bodies.symbols
    return Apart(flat, source.tree, shared).whole() if shared else flat


def paths_of(thing):
    """The paths of a member's parts."""
    if hasattr(thing, "names") and hasattr(thing, "start"):
        yield thing
    elif isinstance(thing, (list, tuple)) and not hasattr(thing, "members"):
        for part in thing:
            yield from paths_of(part)


class Apart:
    """A flat system in which names are to be told apart."""

    def __init__(self, flat, tree, shared):
        self.flat, self.tree, self.shared = flat, tree, shared
        self.nodes = {node.path: node for node in tree.nodes}
        self.assertions = {}
        """Each assertion of the text, with the units that have it: by the place of its first token."""
        for node in tree.nodes:
            for member in tree.bodies.members(node.scope.unit):
                if member.kind == "assertion":
                    place = (member.first.line, member.first.column)
                    self.assertions.setdefault(place, (member, []))[1].append(node)
        self.places = sorted(self.assertions)

    def whole(self):
        flat = self.flat
        return flat._replace(
            ways=[self.way(way) for way in flat.ways],
            asserts=[one._replace(set=self.set(one.set, self.of_assertion(one))) for one in flat.asserts],
            observers=[one._replace(value=self.text(one.value, self.of_member("observer", one.path), "")) for one in flat.observers])

    def way(self, way):
        if way.guard is None:
            return way
        named = self.of_member("transition", way.event)
        return way._replace(guard=self.text(way.guard, named, "Boolean"), sets=[self.set(one, named) for one in way.sets])

    def set(self, one, named):
        conditions = [(self.text(c, named, "Boolean"), wanted) for c, wanted in one.conditions]
        return one._replace(value=self.text(one.value, named, self.kind(one.target)), conditions=conditions)

    def of_member(self, kind, path):
        """The variables among the shared names that the members of this kind name, for a thing of the flat system."""
        unit, _, name = path.rpartition(".")
        node = self.nodes[unit]
        return self.named(node, [it for it in self.tree.bodies.members(node.scope.unit)
                                 if it.kind == kind and it.name.text == name])

    def of_assertion(self, one):
        """The same for the assertion from which an assignment is."""
        at = bisect.bisect_right(self.places, (one.line, one.column))
        if not at:
            return set()
        member, nodes = self.assertions[self.places[at - 1]]
        node = next((node for node in nodes if self.sets(node, member, one.set.target)), None)
        return set() if node is None else self.named(node, [member])

    def sets(self, node, member, target):
        """Whether a path of this member, in this unit, is the target."""
        return any(self.canonical(node, path) == target for path in paths_of(member.parts))

    def canonical(self, node, path):
        """The variable of the flat system that a path of a unit names, or None."""
        words = node.path.split(".") if node.path else []
        words = [] if path.start == "main" else words[:-1] if path.start == "owner" else words
        try:
            return self.tree.canonical(".".join(words + [name.text for name in path.names]))
        except (Missing, Unknown):
            return None

    def named(self, node, members):
        """The shared names that these members of a unit name as variables."""
        return {self.canonical(node, path) for member in members for path in paths_of(member.parts)} & self.shared

    def kind(self, path):
        """Boolean, number or symbol: the kind of a variable."""
        domain = self.flat.variables[path].domain
        return "Boolean" if domain == "Boolean" else "symbol" if domain.startswith("{") else "number"

    def text(self, text, named, wanted):
        """An expression with its symbols marked."""
        if not self.shared & texts.words(text):
            return text
        kinds = {}
        self.wanted(expressions.parsed(text), wanted, kinds)
        pieces = expressions.Reader(text).pieces[:-1]
        marked = iter([self.marked(piece, named, kinds.get(at, "")) for at, piece in enumerate(pieces)])
        return re.sub(expressions.PIECE, lambda found: found[0].replace(found[1], next(marked), 1), text)

    def marked(self, piece, named, wanted):
        if piece not in self.shared:
            return piece
        is_variable = piece in named and (wanted in ("", self.kind(piece)))
        return piece if is_variable else "'" + piece

    def kind_of(self, node):
        """The kind of a tree as far as its form shows it."""
        if node.form == "word":
            word = node.parts[0]
            if word in self.shared:
                return ""
            if word in self.flat.variables:
                return self.kind(word)
            value = expressions.value_of(word)
            return "Boolean" if isinstance(value, bool) else "number" if isinstance(value, int) else "symbol"
        if node.form in ("if", "switch"):
            branches = node.parts[1:] if node.form == "if" else node.parts[1::2] + node.parts[-1:]
            return next((kind for kind in map(self.kind_of, branches) if kind), "")
        return "Boolean" if node.form in ("not", "and", "or", *expressions.COMPARISONS) else "number"

    def wanted(self, node, kind, found):
        """Notes for each word the kind that its place asks for."""
        if node.form == "word":
            found[node.parts[1]] = kind
            return
        parts = node.parts
        if node.form in ("if", "switch"):
            last = len(parts) - 1
            for at, part in enumerate(parts):
                is_test = at == 0 if node.form == "if" else at % 2 == 0 and at != last
                self.wanted(part, "Boolean" if is_test else kind, found)
            return
        if node.form in ("==", "!="):
            kind = self.kind_of(parts[0]) or self.kind_of(parts[1])
        else:
            kind = "Boolean" if node.form in ("not", "and", "or", "count") else "number"
        for part in parts:
            self.wanted(part, kind, found)
