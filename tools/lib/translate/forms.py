"""Declarations of AltaRica 3.0 as those of the profile: values at the start, settings, numbers, records, arrays, hidden
events. Not proved."""
from grammar import Domain, Unit
from translate.edits import Edit, apply
from translate.refused import Refused
from translate.wide import ATTRIBUTES, NEVER


class Forms:
    """The declarations of a text that was read; `parser` gets the edits and the notes."""

    def __init__(self, parser, items, limits, scale):
        self.parser, self.items, self.limits, self.scale = parser, items, limits, scale
        self.units = [unit for item in items if isinstance(item, Unit) for unit in _inside(item)]
        self.top = {item.name.text: item for item in items if isinstance(item, Unit)}
        self.domains = {item.name.text: item for item in items if isinstance(item, Domain)}
        self.records = {unit.name.text: unit for unit in parser.records}
        self.kinds = {}
        for unit in self.units:
            for member in unit.members:
                if member.kind in ("variables", "parameter"):
                    self._kind(member)
        self.assigned = self._assigned()

    def _kind(self, member):
        names = [member.name] if member.kind == "parameter" else [n for group in member.parts[1] for n in group.names]
        for name in names:
            self.kinds.setdefault(name.text, set()).add((member.kind, member.parts[0].text))

    def note(self, text, token):
        self.parser.notes.append((text, token.start))

    def rendered(self, start, end):
        """The text between two places with the edits so far."""
        inside = [one for one in self.parser.edits if start <= one.start and one.end <= end]
        return "".join(piece.text for piece in apply(self.parser.text, start, end, inside))

    def is_variable(self, kind):
        return kind.kind in ("Boolean", "Integer", "Real", "{", "[") or kind.text in self.domains

    # -- which variables are states -----------------------------------------------------------------------------------
    def _assigned(self):
        """For each body (by name of its top-level unit, or identity) the names that actions of it and of those that extend
        it assign."""
        own = {id(unit): self._targets(unit) for unit in self.units}
        found = {key: set(names) for key, names in own.items()}
        for unit in self.units:
            todo, seen = [unit], set()
            while todo:
                for member in todo.pop().members:
                    base = self.top.get(member.name.text) if member.kind == "extends" else None
                    if base is not None and id(base) not in seen:
                        seen.add(id(base))
                        found[id(base)] |= own[id(unit)]
                        todo.append(base)
        return found

    @staticmethod
    def _targets(unit):
        todo = [part for member in unit.members if member.kind in ("transition", "synchronisation") for part in member.parts]
        found = set()
        while todo:
            one = todo.pop()
            if getattr(one, "form", None) == ":=":
                found.add(one.parts[0].names[-1].text)
            elif getattr(one, "form", None) in ("{", "if"):
                todo += [part for part in one.parts if part is not None]
        return found

    # -- declarations ---------------------------------------------------------------------------------------------------
    def declarations(self):
        for unit in self.units:
            for member in unit.members:
                if member.kind == "variables":
                    self._declaration(unit, member)
                elif member.kind == "parameter":
                    self._parameter(member)

    def _declaration(self, unit, member):
        kind, groups = member.parts
        if kind.kind in ("Integer", "Real"):
            if self.limits is None:
                raise Refused("a variable is %s: give its values with --range LOW..HIGH" % kind.text, kind)
            self.parser.replace(kind, "Number")
        for group in groups:
            texts, changed = self.settings(unit, kind, group)
            if changed and group.open is None:
                self.parser.insert(group.names[-1].end, " (%s)" % ", ".join(texts))
            elif changed:
                start = group.open.start if texts else group.names[-1].end
                self.parser.edits.append(Edit(start, group.close.end, "(%s)" % ", ".join(texts) if texts else ""))

    def settings(self, unit, kind, group):
        """The settings of a group of names as texts, and whether they are others than in the text."""
        kept = list(group.settings)
        if kind.text in self.records:
            kept = [one for one in kept if len(one.words) > 1]
            if len(kept) < len(group.settings):
                self.note("the attributes of record %s go to none of its fields" % group.names[0].text, group.names[0])
        elif self.is_variable(kind):
            return self._values(unit, kind, group, kept)
        gone = [one for one in kept if one.words[-1].text in ATTRIBUTES and len(one.words) > 1]
        for one in gone:
            self.note("%s is left out: attributes of events have no meaning here" % dotted(one.words), one.first)
        kept = [one for one in kept if one not in gone]
        texts = [self.rendered(one.first.start, one.last.end) for one in kept]
        return texts, len(kept) < len(group.settings)

    def _values(self, unit, kind, group, kept):
        """A state has `init`, a flow `reset`; a field of a record is a flow."""
        name = group.names[0]
        is_record = unit.name.text in self.records and self.records[unit.name.text] is unit
        word = "init" if name.text in self.assigned[id(unit)] and not is_record else "reset"
        given = {one.words[0].text: one for one in kept if one.words[0].text in ("init", "reset") and len(one.words) == 1}
        others = [one for one in kept if one not in given.values()]
        for one in others:
            self.note("%s is left out: a variable has init or reset alone" % dotted(one.words), one.first)
        if len(given) == 1 and not others and not (is_record and "init" in given):
            return [], False
        if len(given) == 2:
            self.note("%s has init and reset: it is a %s" % (name.text, "state" if word == "init" else "flow"), name)
        if not given:
            value = self.default(kind)
            names = ", ".join(token.text for token in group.names)
            self.note("%s has no value at the start: %s = %s" % (names, word, value), name)
            return ["%s = %s" % (word, value)], True
        chosen = given.get(word) or next(iter(given.values()))
        word = word if len(given) == 2 or is_record else chosen.words[0].text
        return ["%s = %s" % (word, self.rendered(chosen.value.first.start, chosen.last.end))], True

    def default(self, kind):
        if kind.kind == "Boolean":
            return "false"
        if kind.kind in ("Integer", "Real"):
            return str(max(self.limits[0], 0)) if self.limits[1] >= 0 else str(self.limits[1])
        if kind.kind in "{[":
            return next(symbols for token, symbols in self.parser.inline if token is kind)[0]
        found = self.domains[kind.text]
        return found.symbols[0].text if found.symbols else str(found.low)

    def _parameter(self, member):
        kind, name = member.parts[0], member.name
        if kind.kind == "Real" and name.text in self.parser.used:
            self.parser.replace(kind, "Integer")

    # -- numbers ----------------------------------------------------------------------------------------------------------
    def _is_scaled(self, context):
        if context in ("", NEVER):
            return context == ""
        for what, kind in self.kinds.get(context, ()):
            if kind in ("Integer", "Real") and (what == "variables" or context in self.parser.used):
                return True
        return False

    def numbers(self):
        """Numbers of expressions are divided by the scale; what is not whole then is refused."""
        if self.scale > 1:
            for token in self.parser.counts:
                if token.start not in self.parser.compared:
                    raise Refused("a count that is not compared with a number is not translated with --scale", token)
            for token in self.parser.products:
                raise Refused("a product of two numbers that change is not translated with --scale", token)
        for token, context in self.parser.numbers:
            if not self._is_scaled(context):
                continue
            value = float(token.text) / self.scale if token.kind == "real" else int(token.text) / self.scale
            if value != int(value):
                raise Refused("the number %s is no multiple of --scale %d" % (token.text, self.scale), token)
            if token.kind == "real" or self.scale > 1:
                self.parser.replace(token, str(int(value)))

    # -- records and arrays -----------------------------------------------------------------------------------------------
    def record_assignments(self):
        """Assignments of records become assignments of their fields."""
        for instr in self.parser.loose:
            left, right = instr.parts[0], instr.parts[1]
            if instr.form == ":=":
                right = right.parts[0] if right.form == "path" else None
            name = self._record_of(left)
            if right is None or name is None or self._record_of(right) != name:
                continue
            fields = [token.text for member in self.records[name].members for group in member.parts[1] for token in group.names]
            texts = [self.rendered(path.first.start, path.last.end) for path in (left, right)]
            lines = ["%s.%s %s %s.%s;" % (texts[0], field, instr.form, texts[1], field) for field in fields]
            self.note("an assignment of records is written field by field", left.first)
            end = instr.last.end
            self.parser.edits.append(Edit(instr.first.start, end, "{ %s }" % " ".join(lines)))

    def _record_of(self, path):
        kinds = {kind for what, kind in self.kinds.get(path.names[-1].text, ()) if kind in self.records}
        return kinds.pop() if len(kinds) == 1 else None

    def arrays(self, words):
        """Names with a number in brackets become names of their own."""
        for name, (token, count, close) in self.parser.arrays.items():
            indexes = {index for _, index, _ in self.parser.indexed.get(name, ())}
            first = 0 if 0 in indexes else 1
            if not count or indexes and max(indexes) > count - 1 + first:
                raise Refused("%s has %d parts, from %d on, and another is named" % (name, count, first), token)
            made = {index: _free("%s_%d" % (name, index), words) for index in range(first, first + count)}
            self.parser.edits.append(Edit(token.start, close.end, ", ".join(made.values())))
            self.note("%s[%d] becomes %s" % (name, count, ", ".join(made.values())), token)
            for used, index, end in self.parser.indexed.get(name, ()):
                self.parser.edits.append(Edit(used.start, end.end, made[index]))
        for name, places in self.parser.indexed.items():
            if name not in self.parser.arrays:
                raise Refused("%s is no array" % name, places[0][0])


def dotted(words):
    """The words of a setting as they are written."""
    return ".".join(word.text for word in words)


def _free(wish, words):
    while wish in words:
        wish += "_"
    return wish


def _inside(unit):
    yield unit
    for member in unit.members:
        if member.kind == "block":
            yield from _inside(member.parts[0])
