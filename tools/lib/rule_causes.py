"""The cause of a broken rule L1 to L14, found in the text at its place; `rule_words` has what is said of each. Not proved: where
the text does not show the cause, the rule's own words are all that is said.
"""
from asked import near
from grammar import COMPARISONS, Domain, Expr, Instr, Member, Path, Unit
from hierarchy import Missing, Scope, Tree, Unknown, written
from refusals import ADVICE, IN_COUNT, KINDS, WORDS
from rule_words import said


def unit_named(scope):
    return "%s `%s`" % (scope.unit.kind, scope.unit.name.text)


class Text:
    """The items of a model, with each member that begins before a place and the scopes in which it is used."""

    def __init__(self, bodies, line, column):
        self.bodies, self.place = bodies, (line, column)

    def here(self, token):
        return (token.line, token.column) == self.place

    def scopes(self):
        """The scopes of the units of the main block, then those of the bodies of the text."""
        found = []
        try:
            found = [node.scope for node in Tree(self.bodies).nodes]
        except (Missing, Unknown, KeyError, AttributeError):
            pass
        return found + list(self.bodies.scopes())

    def members(self):
        """Each member with each scope that has it."""
        for scope in self.scopes():
            for member in scope.unit.members:
                if member.kind == "extends":
                    yield scope, member
            try:
                for member in self.bodies.members(scope.unit):
                    yield scope, member
            except Unknown:
                continue

    def first(self, cause):
        """The first cause that some member in some scope gives."""
        for scope, member in self.members():
            try:
                found = cause(scope, member)
            except (Missing, Unknown, KeyError):
                continue
            if found:
                return found
        return None


def paths_of(thing):
    """Each path of a tree, with whether it names a variable or parameter, a unit, or an event."""
    if isinstance(thing, Path):
        yield thing
    elif isinstance(thing, (list, tuple)):
        for part in thing:
            if not isinstance(part, Unit):
                yield from paths_of(part)


def exprs_of(thing):
    if isinstance(thing, (Expr, Instr, Member, list, tuple)) and not isinstance(thing, Unit):
        if isinstance(thing, Expr):
            yield thing
        for part in (thing.parts if isinstance(thing, (Expr, Instr, Member)) else thing):
            yield from exprs_of(part)


# The rules, one after the other.

def items(text):
    for number, item in enumerate(text.bodies.items):
        if text.here(item.name):
            before = [i for i in text.bodies.items[:number] if i.name.text == item.name.text]
            if before:
                kind = "domain" if isinstance(before[0], Domain) else before[0].kind
                return said("name is taken", item.name.text, kind, before[0].name.line)
            return domain(item) if isinstance(item, Domain) else None
    return None


def domain(item):
    if item.symbols is None:
        if item.low > item.high:
            return said("ends turned round", item.low, item.high)
        return said("too many values", item.high - item.low + 1)
    names = [s.text for s in item.symbols]
    twice = [n for n in names if names.count(n) > 1]
    return said("symbol twice", twice[0]) if twice else said("too many values", len(names))


def type_name(text):
    def cause(_, member):
        if member.kind == "extends" and text.here(member.name):
            return type_cause(text, member.name.text, ("class",))
        kind = member.parts[0] if member.kind in ("variables", "parameter", "observer") else None
        if kind is None or not text.here(kind):
            return None
        return type_cause(text, kind.text, ("class", "domain") if member.kind == "variables" else ("domain",))
    return text.first(cause)


def type_cause(text, name, wanted):
    bodies = text.bodies
    if name in bodies.units and bodies.units[name].kind == "block":
        return said("a block is one", name, " or ".join("a " + w for w in wanted))
    if name in bodies.domains:
        return said("domain, no class", name)
    if name in bodies.classes:
        return said("class, no domain", name)
    known = (list(bodies.classes) if "class" in wanted else []) + (
        ["Boolean"] + list(bodies.domains) if "domain" in wanted else [])
    return said("no such type", " and no ".join(wanted), name, near(name, known))


def contains_itself(text):
    def within(unit):
        for member in unit.members:
            name = member.name.text if member.kind == "extends" else (
                member.parts[0].text if member.kind == "variables" else None)
            if name in text.bodies.classes:
                yield name
            if member.kind == "block":
                yield from within(member.parts[0])

    names = {n: list(within(u)) for n, u in text.bodies.units.items()}

    def way(start, at, seen):
        for name in names.get(at, ()):
            if name == start:
                return [at, name]
            if name not in seen:
                seen.add(name)
                found = way(start, name, seen)
                if found:
                    return [at] + found
        return None
    for name, inner in names.items():
        found = way(name, name, set())
        if found and len(found) == 2:
            return said("itself as a part", name)
        if found and inner:
            return said("contains itself", name, ", which contains ".join("`%s`" % n for n in found))
    return None


def twice(text):
    for scope in text.scopes():
        names = {}
        for token, kind, _ in text.bodies.names(scope.unit):
            if text.here(token) and token.text in names:
                first = names[token.text]
                kind = "a part" if first[1] == "unit" else WORDS[first[1]]
                return said("member twice", kind, token.text, first[0].line)
            names.setdefault(token.text, (token, kind))
    return None


def no_main(text):
    blocks = [n for n, u in text.bodies.units.items() if u.kind == "block"]
    if blocks:
        return said("no such main block", ", ".join("`%s`" % b for b in blocks))
    return said("no block at all")


def copy_path(text):
    def cause(scope, member):
        if member.kind not in ("clones", "embeds") or not text.here(member.parts[0].first):
            return None
        try:
            text.bodies.unit(scope, member.parts[0])
        except Missing as missing:
            return missing_cause(text, missing, "unit") + unit_above(text, missing, member.parts[0])
        return None
    return text.first(cause)


def unit_above(text, missing, path):
    """What to write where a block lacks a unit that the unit above has."""
    where = missing.where
    if path.start or missing.found or missing.number or where.unit.kind != "block" or where.owner is None:
        return ""
    kind, _ = text.bodies.find(where.owner, missing.name) or (None, None)
    return said("owner has the unit", written(path)) if kind == "unit" else ""


def missing_cause(text, missing, wanted):
    where, name = missing.where, missing.name
    if missing.found:
        return said("other kind of member", name, unit_named(where), WORDS[missing.found[0]], wanted)
    names = [t.text for t, kind, _ in text.bodies.names(where.unit) if kind in ("unit", wanted)]
    return said("no such member", unit_named(where), name, near(name, names))


def circle(text):
    def cause(scope, member):
        if member.kind not in ("clones", "embeds") or not text.here(member.parts[0].first):
            return None
        path = written(member.parts[0])
        try:
            target = text.bodies.unit(scope, member.parts[0])
        except Unknown:
            return said("follows itself", path, member.kind)
        outer = scope
        while outer is not None:
            if outer.unit is target.unit:
                return said("copy of what is around it", path)
            outer = outer.owner
        return None
    return text.first(cause) or "the path comes back to itself, by other `clones` and `embeds`"


def one_setting(text):
    def cause(_, member):
        if member.kind != "variables" or not text.here(member.parts[1][0]):
            return None
        settings = member.parts[2]
        words = [".".join(w.text for w in s.words) for s in settings]
        if not words:
            return said("no setting")
        if sorted(words) == ["init", "reset"]:
            return said("both settings")
        if len(words) == 1:
            return said("another setting", words[0])
        return said("several settings", ", ".join("`%s`" % w for w in words))
    return text.first(cause)


def setting_target(text):
    def cause(scope, member):
        if member.kind != "variables" or member.parts[0].text not in text.bodies.classes:
            return None
        for number, setting in enumerate(member.parts[2]):
            if text.here(setting.first):
                words = [w.text for w in setting.words]
                if words in [[w.text for w in s.words] for s in member.parts[2][:number]]:
                    return said("set already", ".".join(words))
                inner = Scope(text.bodies.classes[member.parts[0].text], scope)
                return target_cause(text, inner, words, member.parts[1][0].text)
        return None
    return text.first(cause)


def target_cause(text, scope, words, part):
    """Why words of a setting have no target in a scope; `part` is the part that is set."""
    attribute = words[-1] if words[-1] in ("init", "reset") else None
    names = words[:-1] if attribute else words
    if not names:
        return said("no variable to set")
    for number, name in enumerate(names):
        found = text.bodies.find(scope, name)
        last = number == len(names) - 1
        if not found:
            known = [t.text for t, _, _ in text.bodies.names(scope.unit)]
            return said("no such member", unit_named(scope), name, near(name, known))
        if not last:
            if found[0] != "unit" or found[1].kind == "embeds":
                return said("setting through an alias", name, unit_named(scope))
            scope = text.bodies.inner(scope, name, found[1])
    return last_cause(scope, names[-1], attribute, found, ".".join([part, *names]))


def last_cause(scope, name, attribute, found, path):
    kind, member = found
    if kind in ("parameter", "kept"):
        return said("parameter by its name", name) if attribute else None
    if kind != "variable":
        return said("nothing to set", name, unit_named(scope), WORDS[kind])
    own = ".".join(w.text for w in member.parts[2][0].words) if member.parts[2] else "init"
    if own == "reset" and attribute is None:
        return said("flow is fed by an assertion", name, path, name)
    if attribute != own:
        return said("set by another word", name, "state" if own == "init" else "flow", name, own)
    return None


# L10.

def nothing_named(text):
    return text.first(lambda scope, member: path_cause(text, scope, member)) or text.first(
        lambda scope, member: constant_cause(text, scope, member))


def path_cause(text, scope, member):
    if member.kind in ("transition", "synchronisation") and text.here(member.name):
        own = [(token.text, kind) for token, kind, _ in text.bodies.names(scope.unit)]
        kinds = dict(own)
        if kinds.get(member.name.text) == "event":
            return None
        if member.name.text in kinds:
            return said("no event of this unit", member.name.text, WORDS[kinds[member.name.text]])
        event = member.name.text
        return said("no such event", unit_named(scope), event, near(event, [n for n, k in own if k == "event"]), event)
    wanted = "event" if member.kind in ("synchronisation", "hide") else "variable"
    if member.kind in ("clones", "embeds", "variables", "parameter"):
        return None
    for path in paths_of(member.parts):
        if text.here(path.first):
            return named(text, scope, path, wanted)
    return None


def named(text, scope, path, wanted):
    """Why a path names nothing of this kind."""
    if wanted == "variable" and not path.start and len(path.names) == 1 and path.names[0].text in text.bodies.symbols:
        name = path.names[0].text
        kind = (text.bodies.find(scope, name) or ("variable",))[0]
        return None if kind in ("variable", "parameter") else said("symbol is hidden", name, WORDS[kind], unit_named(scope), name)
    try:
        found = text.bodies.thing(scope, path)
    except Missing as missing:
        return alone(text, missing, path) if wanted == "variable" else missing_cause(text, missing, wanted)
    except Unknown:
        if path.start == "owner" and scope.unit is text.bodies.main:
            return said("nothing above the main block")
        raise
    if found.kind == wanted or wanted == "variable" and found.kind == "parameter":
        return None
    needed = "an event" if wanted == "event" else "a variable or a parameter"
    return said("other kind is needed", written(path), WORDS[found.kind], needed)


def alone(text, missing, path):
    """Why a name of an expression is nothing."""
    if len(path.names) > 1 or path.start:
        if missing.found:
            return said("no unit on the way", missing.name, unit_named(missing.where), WORDS[missing.found[0]])
        names = [t.text for t, _, _ in text.bodies.names(missing.where.unit)]
        return said("no such member of a path", unit_named(missing.where), missing.name, near(missing.name, names),
                    of_the_unit_above(text, missing, path) or of_the_main_block(text, missing, path))
    if missing.name.lower() in ("true", "false"):
        return said("truth values")
    known = [t.text for t, k, _ in text.bodies.names(missing.where.unit) if k in ("variable", "parameter")]
    return said("no such name", missing.name, unit_named(missing.where), near(missing.name, known + list(text.bodies.symbols)))


def of_the_unit_above(text, missing, path):
    """What to write where a block lacks a member that the unit above has, which is not the main block."""
    where, main = missing.where, text.bodies.main
    if missing.number or where.unit.kind != "block" or where.owner is None or where.owner.unit is main or not text.bodies.find(
            where.owner, missing.name):
        return ""
    return said("owner has the member", ".".join(n.text for n in path.names), where.unit.name.text)


def of_the_main_block(text, missing, path):
    """What to write where the main block has a member that a unit inside it lacks."""
    main = text.bodies.main
    if missing.number or main is None or missing.where.unit is main or not text.bodies.find(Scope(main, None), missing.name):
        return ""
    scope = missing.where
    while scope is not None:
        if scope.unit.kind == "class":
            return said("flow into a class")
        scope = scope.owner
    return said("main has the member", ".".join(n.text for n in path.names))


def constant_cause(text, scope, member):
    """Why a value of `init`, `reset`, a setting or a parameter names what it may not."""
    values = [s.value for s in member.parts[2]] if member.kind == "variables" else (
        [member.parts[1]] if member.kind == "parameter" else [])
    for path in paths_of([list(exprs_of(v)) for v in values]):
        if text.here(path.first):
            if path.start or len(path.names) > 1:
                return said("constant with a dot")
            name = path.names[0].text
            kind = (text.bodies.find(scope, name) or ("",))[0]
            if kind == "parameter":
                return said("later parameter")
            if kind:
                return said("no constant", name, WORDS[kind])
            return said("no such symbol", name, unit_named(scope), near(name, text.bodies.symbols))
    return None


# L11 and L12.

def kind_of_type(text, token):
    if token.kind in ("Boolean", "Real"):
        return "Boolean" if token.kind == "Boolean" else "real"
    if token.kind == "Integer":
        return "number"
    found = text.bodies.domains[token.text]
    return "number" if found.symbols is None else "symbol"


class Types:
    """The kinds of expressions in a scope, and the places where another one is needed."""

    def __init__(self, text, scope):
        self.text, self.scope, self.wrong, self.counting = text, scope, [], 0

    def of_path(self, path):
        try:
            found = self.text.bodies.thing(self.scope, path)
        except Missing:
            if len(path.names) == 1 and not path.start and path.names[0].text in self.text.bodies.symbols:
                return "symbol"
            raise
        return kind_of_type(self.text, found.member.parts[0])

    def of(self, expr):
        form, parts = expr.form, expr.parts
        if form == "literal":
            return "number" if expr.first.kind == "whole" or expr.last.kind == "whole" else "Boolean"
        if form == "real":
            return "real"
        if form == "path":
            return self.of_path(parts[0])
        if form == "count":
            self.counting += 1
            self.need("Boolean", parts, "an operand of `count`")
            self.counting -= 1
            return "number"
        if form in ("not", "and", "or"):
            self.need("Boolean", parts, "an operand of `%s`" % form)
            return "Boolean"
        if form in COMPARISONS:
            return self.compared(form, parts)
        if form in ("+", "-", "*", "min", "max"):
            self.need("number", parts, "an operand of `%s`" % form)
            return "number"
        tests = parts[:-1:2] if form == "switch" else parts[:1]
        branches = parts[1::2] + parts[-1:] if form == "switch" else parts[1:]
        self.need("Boolean", tests, "a test")
        kind = self.of(branches[0])
        self.need(kind, branches[1:], "a later branch")
        return kind

    def compared(self, form, parts):
        if form in ("==", "!="):
            self.need(self.of(parts[0]), parts[1:], "the right side of `%s`" % form)
        else:
            self.need("number", parts, "an operand of `%s`%s" % (form, IN_COUNT if self.counting else ""))
        return "Boolean"

    def need(self, kind, exprs, what):
        for expr in exprs:
            found = self.of(expr)
            if found != kind and {found, kind} != {"real"}:
                self.wrong.append((expr, kind, found, what))

    def instr(self, instr, what):
        if instr is None or instr.form == "skip":
            return
        if instr.form == "if":
            self.need("Boolean", instr.parts[:1], "a test")
            for part in instr.parts[1:]:
                self.instr(part, what)
        elif instr.form == "{":
            for part in instr.parts:
                self.instr(part, what)
        elif instr.form == ":=":
            self.need(self.of_path(instr.parts[0]), instr.parts[1:], "the value of `%s`" % written(instr.parts[0]))
        else:
            left, right = instr.parts
            self.need(self.of_path(left), [Expr("path", [right], right.first, right.last)],
                      "as `%s` is, the right side" % written(left))


def wrong_type(text):
    def cause(scope, member):
        types = Types(text, scope)
        if member.kind == "variables" and member.parts[0].text not in text.bodies.classes:
            types.need(kind_of_type(text, member.parts[0]), [s.value for s in member.parts[2]], "the value")
        elif member.kind in ("observer", "parameter"):
            types.need(kind_of_type(text, member.parts[0]), member.parts[1:], "the value of `%s`" % member.name.text)
        elif member.kind == "transition":
            types.need("Boolean", member.parts[:1], "a guard")
            types.instr(member.parts[1], "")
        elif member.kind == "assertion":
            types.instr(member.parts[0], "")
        for expr, kind, found, what in types.wrong:
            if text.here(expr.first):
                return said("wrong type", what, KINDS[kind], KINDS[found], advice(kind, found, what, expr))
        return None
    return text.first(cause)


def advice(kind, found, what, expr):
    """What to write in place of an expression of another type."""
    form = expr.form
    if form == "count" and expr.parts[-1].form in COMPARISONS:
        form = "count of a comparison"
    return next((words for wanted, got, place, of_form, words in ADVICE
                 if got == found and wanted in (None, kind) and of_form in (None, form)
                 and (what.startswith(place) or what.endswith(place))), "")


def outside_domain(text):
    def cause(scope, member):
        values = []
        if member.kind == "variables" and member.parts[0].text not in text.bodies.classes:
            values = [(member.parts[0], s.value) for s in member.parts[2]]
        elif member.kind == "parameter":
            values = [(member.parts[0], member.parts[1])]
        elif member.kind == "variables":
            values = setting_values(text, scope, member)
        for kind, value in values:
            if text.here(value.first):
                return values_cause(text, kind)
        return None
    return text.first(cause)


def setting_values(text, scope, member):
    for setting in member.parts[2]:
        words = [w for w in setting.words if w.kind == "name"]
        inner = Scope(text.bodies.classes[member.parts[0].text], scope)
        for word in words[:-1]:
            inner = text.bodies.inner(inner, word.text, text.bodies.find(inner, word.text)[1])
        yield text.bodies.find(inner, words[-1].text)[1].parts[0], setting.value


def values_cause(text, kind):
    found = text.bodies.domains.get(kind.text)
    if found is None:
        return None
    if found.symbols is None:
        return said("values of a range", kind.text, found.low, found.high)
    names = [s.text for s in found.symbols]
    shown = names if len(names) < 9 else names[:8] + ["and so on"]
    return said("symbols of a domain", kind.text, ", ".join(shown))


# L13 and L14.

def wrong_target(text):
    def cause(scope, member):
        if member.kind not in ("transition", "assertion"):
            return None
        for form, path in targets(member.parts[-1]):
            if text.here(path.first):
                if member.kind == "transition" and form == ":=:":
                    return said("two-way in a transition")
                return target_kind(text, scope, member.kind, path)
        return None
    return text.first(cause)


def targets(instr):
    if instr is None:
        return
    if instr.form in (":=", ":=:"):
        for path in instr.parts[:1] if instr.form == ":=" else instr.parts:
            yield instr.form, path
    for part in instr.parts if instr.form in ("{", "if") else ():
        if isinstance(part, Instr):
            yield from targets(part)


def target_kind(text, scope, kind, path):
    found = text.bodies.thing(scope, path)
    word = found.member.parts[2][0].words[0].text
    if kind == "transition":
        return said("flow in a transition", written(path), word, found.member.first.line)
    return said("state in an assertion", written(path), word, found.member.first.line)


def part_of_itself(text):
    def cause(scope, member):
        if member.kind != "synchronisation" or not text.here(member.name):
            return None
        start = (scope.unit.name, member.name.text)
        way = circle_of(text, scope, member.name.text, start, [], 0)
        return said("part of itself", member.name.text, ", which has the part ".join(way)) if way else None
    return text.first(cause)


def circle_of(text, scope, event, start, way, depth):
    if way and (scope.unit.name, event) == start:
        return way + ["`%s`" % event]
    if depth > 20:
        return None
    for member in text.bodies.members(scope.unit):
        if member.kind == "synchronisation" and member.name.text == event:
            for _, path in member.parts[0]:
                found = text.bodies.thing(scope, path)
                further = circle_of(text, found.scope, path.names[-1].text, start, way + ["`%s`" % event], depth + 1)
                if further:
                    return further
    return None


CAUSES = {"L1": items, "L2": type_name, "L3": contains_itself, "L4": twice, "L5": no_main, "L6": copy_path, "L7": circle,
          "L8": one_setting, "L9": setting_target, "L10": nothing_named, "L11": wrong_type, "L12": outside_domain,
          "L13": wrong_target, "L14": part_of_itself}


def cause_of(rule, bodies, line, column):
    """The cause of a broken rule at its place, or None where the text does not show it."""
    try:
        return CAUSES[rule](Text(bodies, line, column))
    except (Missing, Unknown, KeyError, RecursionError):
        return None
