"""What a text in the profile means: its units, and the system that they make. Not proved; the tests compare it with
what the program writes for `flat`."""
import itertools

import hierarchy
from translate import expressions
from translate.refused import Refused
from translate.system import Domain, Event, Set, System, Variable, Way


def joined(unit, name):
    return unit + "." + name if unit else name


def unit_of(path):
    return path.rpartition(".")[0]


def name_of(path):
    return path.rpartition(".")[2]


BOOLEAN = Domain("Boolean", (False, True))


class Elaboration:
    """The units of a text, and what paths, settings and expressions mean in them."""

    def __init__(self, source):
        self.source, self.bodies = source, source.bodies
        if source.main is None:
            raise Refused("there is no main block")
        self.tree = hierarchy.Tree(self.bodies)
        self.units = {node.path: node for node in self.tree.nodes}
        self.alias = {path: self.tree.canonical(path) for path, _ in self.tree.aliases}
        self.domains = {"Boolean": BOOLEAN}
        for name, one in self.bodies.domains.items():
            values = tuple(s.text for s in one.symbols) if one.symbols else tuple(range(one.low, one.high + 1))
            self.domains[name] = Domain(name, values)
        self.member_lists, self.constants = {}, {}
        self.settings = self._settings()
        self.hidden = self._hidden()

    def members(self, unit):
        """The members of the unit at a path, inherited ones first."""
        body = self.units[unit].scope.unit
        if id(body) not in self.member_lists:
            self.member_lists[id(body)] = list(self.bodies.members(body))
        return self.member_lists[id(body)]

    def _settings(self):
        """(unit, name, `init`, `reset` or ``) -> (setting, the unit that it is read in); the outermost is taken."""
        found = {}
        for node in self.tree.nodes:
            for one in self.declared_settings(node.path):
                words = [token.text for token in one.words]
                last = words.pop() if words[-1] in ("init", "reset") else ""
                unit = ".".join([node.path, *words[:-1]])
                found.setdefault((unit, words[-1], last), (one, unit_of(node.path)))
        return found

    def declared_settings(self, unit):
        """The settings of the declaration of a unit; a clone has those of what it copies, read at its own place."""
        kind = self.units[unit].kind
        if kind not in ("part", "clone"):
            return []
        member = self.bodies.find(self.units[unit_of(unit)].scope, name_of(unit))[1]
        return member.parts[2] if kind == "part" else self.declared_settings(self.path(unit_of(unit), member.parts[0]))

    def _hidden(self):
        found = set()
        for node in self.tree.nodes:
            for member in self.members(node.path):
                if member.kind == "hide":
                    found.add(self.path(node.path, member.parts[0]))
        return found

    def path(self, unit, path):
        """The canonical path of what a path names in a unit."""
        at = "" if path.start == "main" else unit_of(unit) if path.start == "owner" else unit
        for token in path.names[:-1]:
            at = joined(at, token.text)
            at = self.alias.get(at, at)
        last = joined(at, path.names[-1].text)
        return self.alias.get(last, last)

    def constant(self, unit, name):
        """The value of a parameter of a unit."""
        key = unit, name
        if key not in self.constants:
            kind, member = self.bodies.find(self.units[unit].scope, name)
            value, where = member.parts[1], unit
            if (unit, name, "") in self.settings:
                setting, where = self.settings[unit, name, ""]
                value = setting.value
            self.constants[key] = expressions.value(self.tree_of(value, where), {})
        return self.constants[key]

    def kept(self, unit, name):
        """The tokens of a `parameter Real` of a unit, or of its setting."""
        if (unit, name, "") in self.settings:
            value = self.settings[unit, name, ""][0].value
            number = self.source.number_of
            return self.source.tokens[number(value.first):number(value.last) + 1]
        return self.source.kept.get(self.bodies.find(self.units[unit].scope, name)[1].name.start, [])

    def tree_of(self, expr, unit):
        """An expression of the text, read in a unit, as a tree."""
        form = expr.form
        if form == "literal":
            text = expr.first.text if expr.first.kind != "(" else self._inner(expr).text
            return ("value", text == "true" if text in ("true", "false") else int(text))
        if form == "real":
            raise Refused("a real number has no value here", expr.first)
        if form == "path":
            return self._named(expr.parts[0], unit)
        inner = [self.tree_of(part, unit) for part in expr.parts]
        if form == "switch":
            return ("switch", tuple(zip(inner[:-1:2], inner[1:-1:2])), inner[-1])
        if form == "-" and len(inner) == 1:
            return ("negative", inner[0])
        if form == "*":
            found = inner[0]
            for one in inner[1:]:
                found = ("*", found, one)
            return found
        return (form, *inner)

    def _inner(self, expr):
        """The token inside the brackets around a literal."""
        number = self.source.number_of(expr.first)
        while self.source.tokens[number].kind == "(":
            number += 1
        return self.source.tokens[number]

    def _named(self, path, unit):
        if not path.start and len(path.names) == 1:
            name = path.names[0].text
            if self.bodies.find(self.units[unit].scope, name) is None:
                if name not in self.bodies.symbols:
                    raise Refused("%s is no member of its unit and no symbol" % name, path.first)
                return ("value", name)
        found = self.path(unit, path)
        owner = unit_of(found)
        kind = self.bodies.find(self.units[owner].scope, name_of(found)) if owner in self.units else None
        if kind is None or kind[0] not in ("variable", "parameter"):
            raise Refused("%s names no variable" % hierarchy.written(path), path.first)
        return ("value", self.constant(owner, name_of(found))) if kind[0] == "parameter" else ("variable", found)

    # -- the system ---------------------------------------------------------------------------------------------
    def system(self):
        variables, events, ways, assignments, observers = [], [], [], [], {}
        for node in self.tree.nodes:
            unit = node.path
            for member in self.members(unit):
                if member.kind == "variables" and member.parts[0].text not in self.bodies.classes:
                    variables += self._variables(unit, member)
                elif member.kind == "event":
                    events.append(self._event(unit, member))
                elif member.kind == "observer":
                    observers[joined(unit, member.name.text)] = self.tree_of(member.parts[1], unit)
                elif member.kind == "assertion":
                    assignments += self.sets(member.parts[0], unit)
        self.split = {}
        for node in self.tree.nodes:
            self._transitions(node.path)
        for event in events:
            ways += self._ways(event.path)
        return System(variables, events, ways, assignments, observers, self._parts_of())

    def _parts_of(self):
        """The parts of each event that is synchronised."""
        found = {}
        for event, members in self.split.items():
            for unit, member in members:
                if member.kind == "synchronisation":
                    parts = [(mark, self.path(unit, path), path.first) for mark, path in member.parts[0]]
                    found.setdefault(event, []).extend(parts)
        return found

    def _variables(self, unit, member):
        for token in member.parts[1]:
            domain = self.domains.get(member.parts[0].text)
            if domain is None:
                raise Refused("%s is no domain" % member.parts[0].text, member.parts[0])
            own = {one.words[0].text: (one, unit) for one in member.parts[2] if len(one.words) == 1}
            word = "init" if "init" in own else "reset"
            setting, where = self.settings.get((unit, token.text, word)) or own.get(word) or (None, None)
            if setting is None:
                raise Refused("%s has neither init nor reset" % token.text, token)
            value = expressions.value(self.tree_of(setting.value, where), {})
            yield Variable(joined(unit, token.text), word == "init", domain, value, unit, member, token)

    def _event(self, unit, member):
        return Event(joined(unit, member.name.text), unit, member, self._at_once(unit, member))

    def _at_once(self, unit, member):
        """Whether an event has a delay of zero: Dirac(0), constant(0), or of a parameter that is zero."""
        words = self.source.attributes.get(member.name.start, [])
        for at in range(len(words) - 5):
            kinds = [token.text for token in words[at:at + 6]]
            if kinds[:2] == ["delay", "="] and kinds[2].lower() in ("dirac", "constant") and kinds[3] == "(" and kinds[5] == ")":
                return self._is_zero(unit, words[at + 4])
        return False

    def _is_zero(self, unit, token):
        if token.kind in ("whole", "real"):
            return float(token.text) == 0
        found = self.bodies.find(self.units[unit].scope, token.text) if token.kind == "name" else None
        if found is None or found[0] not in ("kept", "parameter"):
            return False
        if found[0] == "parameter":
            return self.constant(unit, token.text) == 0
        kept = self.kept(unit, token.text)
        return len(kept) == 1 and self._is_zero(unit, kept[0])

    def sets(self, instr, unit, conditions=()):
        """The assignments of an instruction, in order, with their conditions."""
        if instr is None or instr.form == "skip":
            return []
        if instr.form == "{":
            return [one for part in instr.parts for one in self.sets(part, unit, conditions)]
        if instr.form == "if":
            test = self.tree_of(instr.parts[0], unit)
            return (self.sets(instr.parts[1], unit, (*conditions, (test, True)))
                    + self.sets(instr.parts[2], unit, (*conditions, (test, False))))
        target = self.path(unit, instr.parts[0])
        if instr.form == ":=":
            return [Set(target, self.tree_of(instr.parts[1], unit), list(conditions))]
        other = self.path(unit, instr.parts[1])
        return [Set(target, ("variable", other), list(conditions)), Set(other, ("variable", target), list(conditions))]

    def _transitions(self, unit):
        for member in self.members(unit):
            if member.kind in ("transition", "synchronisation"):
                self.split.setdefault(joined(unit, member.name.text), []).append((unit, member))

    def _count(self, event, open_events=()):
        """How many ways an event has."""
        if event in open_events:
            raise Refused("%s is a part of itself" % event)
        count = 0
        for unit, member in self.split.get(event, ()):
            if member.kind == "transition":
                count += 1
                continue
            product = 1
            for _, path in member.parts[0]:
                product *= self._count(self.path(unit, path), (*open_events, event))
            count += product
            if count > 4096:
                raise Refused("%s has more than 4096 ways" % event, member.name)
        return count

    def _ways(self, event):
        number = 0
        for unit, member in self.split.get(event, ()):
            if member.kind == "transition":
                number += 1
                yield Way(event, number, event in self.hidden, unit, member,
                          self.tree_of(member.parts[0], unit), self.sets(member.parts[1], unit))
                continue
            parts = [(mark, self.path(unit, path)) for mark, path in member.parts[0]]
            self._count(event)
            for choice in itertools.product(*[range(1, self._count(e) + 1) for _, e in parts]):
                number += 1
                chosen = [(mark, e, n) for (mark, e), n in zip(parts, choice)]
                yield Way(event, number, event in self.hidden, unit, member, parts=chosen)


def elaborate(source):
    """The units of a text and the system that they make."""
    found = Elaboration(source)
    return found, found.system()
