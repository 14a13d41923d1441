"""Writes a plan into the text of the model: by edits, so that all else stays as it is. A class whose units need
different bodies is written once for each of them. Not proved."""
import re

from translate.edits import Edit, Edited, Piece, apply, behind, indent_of, is_first, line_of
from translate.elaborate import joined

VARIANT = re.compile("\x01([^\x02]*)\x02([0-9]+)\x03")


class Rewriting:
    """The edits of each unit, and the variants of each class."""

    def __init__(self, source, elaboration, plan):
        self.source, self.text, self.elaboration, self.plan = source, source.text, elaboration, plan
        self.found, self.variants, self.body_of = {}, {}, {}
        for scope in source.bodies.scopes():
            for member in scope.unit.members:
                self.body_of[id(member)] = scope.unit

    # -- variants of classes ----------------------------------------------------------------------------------------
    def variant(self, unit, body):
        """The name of a class as this unit needs it, as a mark that `written` replaces."""
        known = self.variants.setdefault(body.name.text, {})
        number = known.setdefault(tuple(self.edits(unit, body)), len(known))
        return "\x01%s\x02%d\x03" % (body.name.text, number)

    def class_names(self):
        """The name of each variant: the class that stays as it is keeps its own, else the first does."""
        found = {}
        for name, known in self.variants.items():
            first = known.get((), 0)
            for number in known.values():
                found[name, number] = name if number == first else self.plan.names.upper(name)
        return found

    # -- edits of a body ------------------------------------------------------------------------------------------------
    def edits(self, unit, body):
        """The edits of a body as a unit needs it; those of blocks inside are among them."""
        key = unit, id(body)
        if key not in self.found:
            found = []
            for member in body.members:
                if member.kind in ("transition", "synchronisation"):
                    found += self._transition(unit, member)
                elif member.kind == "variables":
                    found += self._variables(unit, member, body)
                elif member.kind == "block":
                    found += self.edits(joined(unit, member.name.text), member.parts[0])
                elif member.kind == "clones":
                    found += self._clone(unit, member, body)
                elif member.kind == "extends":
                    found += self._renamed(member.name, self.variant(unit, self.source.bodies.classes[member.name.text]))
            found += self._empty_sections(body, found)
            self.found[key] = found + self._new(unit, body)
        return self.found[key]

    def _renamed(self, token, variant):
        name, number = VARIANT.fullmatch(variant).groups()
        known = next(edits for edits, at in self.variants[name].items() if at == int(number))
        return [Edit(token.start, token.end, variant)] if known else []

    def _transition(self, unit, member):
        plan = self.plan.units[unit]
        if id(member) in plan.kept:
            return []
        indent = "\n" + indent_of(self.text, member.first.start)
        if not is_first(self.text, member.first.start):
            indent += "  "
        instead = plan.instead.get(id(member), [])
        end = member.last if member.kind == "synchronisation" else member.parts[1].last
        return [Edit(member.first.start, end.end, indent.join(instead))]

    def _empty_sections(self, body, edits):
        """Takes out the words of sections of which nothing stays."""
        left, gone = {}, {one.start for one in edits if not one.text}
        for member in body.members:
            if member.kind in ("transition", "synchronisation"):
                word = self.source.word_of(member)
                left.setdefault(word, []).append(member.first.start in gone)
        return [Edit(word.start, word.end, "") for word, all_gone in left.items() if all(all_gone)]

    def _variables(self, unit, member, body):
        if member.parts[0].text in self.source.bodies.classes:
            return self._instances(unit, member)
        names = [token.text for token in member.parts[1]]
        flows = self.plan.units[unit].flows.intersection(names)
        if not flows:
            return []
        words = [one.words[-1] for one in member.parts[2] if one.words[-1].text == "init"]
        changed = [Edit(word.start, word.end, "reset") for word in words]
        if len(flows) == len(names):
            return changed
        return [self._apart(member, [(member.parts[0].text, name, changed if name in flows else []) for name in names])]

    def _instances(self, unit, member):
        """The declaration of units: of variants of their class, with settings of states that have become flows."""
        rows = []
        for token in member.parts[1]:
            inner = joined(unit, token.text)
            type_name = self.variant(inner, self.elaboration.units[inner].scope.unit)
            changed = self._to_flows(inner, member.parts[2])
            rows.append((type_name, token.text, changed))
        if all(row[0] == rows[0][0] and row[2] == rows[0][2] for row in rows):
            return self._renamed(member.parts[0], rows[0][0]) + rows[0][2]
        return [self._apart(member, rows)]

    def _to_flows(self, unit, settings):
        """The edits of settings of a unit whose states have become flows."""
        found = []
        for one in settings:
            words = [word.text for word in one.words]
            if words[-1] == "init" and words[-2] in self.plan.units[".".join([unit, *words[:-2]])].flows:
                found.append(Edit(one.words[-1].start, one.words[-1].end, "reset"))
        return found

    def _apart(self, member, rows):
        """A declaration of several names as one for each."""
        begin = member.parts[1][-1].end
        lines = []
        for type_name, name, changed in rows:
            rest = "".join(piece.text for piece in apply(self.text, begin, member.last.end, changed))
            lines.append("%s %s%s" % (type_name, name, rest))
        return Edit(member.first.start, member.last.end, ("\n" + indent_of(self.text, member.first.start)).join(lines))

    def _clone(self, unit, member, body):
        """A clone stays one where it needs the body of what it copies; else it is declared by itself."""
        inner = joined(unit, member.name.text)
        of = self.elaboration.path(unit, member.parts[0])
        copied = self.elaboration.units[inner].scope.unit
        if self.edits(inner, copied) == self.edits(of, copied):
            return []
        if copied.kind == "class":
            text = "%s %s%s;" % (self.variant(inner, copied), member.name.text, self._settings_text(inner))
            sections = self.source.body(body).sections
            if sections and sections.start < member.first.start:
                at = behind(self.text, body.name.end)
                return [Edit(member.first.start, member.last.end, ""), Edit(at, at, "\n" + self._inner_indent(body) + text)]
        else:
            begin = self.source.body(copied)
            inside = "".join(p.text for p in apply(self.text, begin.name.end, begin.end.start, self.edits(inner, copied)))
            text = "block %s%send" % (member.name.text, inside)
        return [Edit(member.first.start, member.last.end, text)]

    def _settings_text(self, unit):
        """The settings of a clone, for a declaration of its own."""
        settings = self.elaboration.declared_settings(unit)
        changed = self._to_flows(unit, settings)
        pieces = [apply(self.text, one.first.start, one.value.last.end, changed) for one in settings]
        texts = ["".join(piece.text for piece in some) for some in pieces]
        return " (%s)" % ", ".join(texts) if texts else ""

    # -- what is new in a body ------------------------------------------------------------------------------------------
    def _inner_indent(self, body):
        return indent_of(self.text, self.source.body(body).kind.start) + "  "

    def _belongs(self, unit, anchor, body):
        home = self.elaboration.units[unit].scope.unit if anchor is None else self.body_of[id(anchor)]
        return home is body

    def _new(self, unit, body):
        plan, found = self.plan.units[unit], []
        indent = self._inner_indent(body)
        for anchor, text in plan.variables:
            if self._belongs(unit, anchor, body):
                at = behind(self.text, body.name.end if anchor is None else anchor.last.end)
                found.append(Edit(at, at, "\n" + indent + text))
        events = sorted((order, name) for anchor, order, name in plan.events if self._belongs(unit, anchor, body))
        place = self.source.body(body)
        if events:
            text = "event %s;" % ", ".join(name for _, name in events)
            found.append(self._before(place.sections or place.end, [indent + text]))
        lines = []
        moves = [one.text for one in plan.transitions if one.instead_of is None and self._belongs(unit, one.anchor, body)]
        values = [text for anchor, text in plan.assertions if self._belongs(unit, anchor, body)]
        for word, texts in (("transition", moves), ("assertion", values)):
            lines += [indent + word, *[indent + "  " + text for text in texts]] if texts else []
        if lines:
            found.append(self._before(place.end, lines))
        return found

    def _before(self, token, lines):
        """Lines before a token: above its line, where it is the first there."""
        if is_first(self.text, token.start):
            at = line_of(self.text, token.start)
            return Edit(at, at, "".join(line + "\n" for line in lines))
        return Edit(token.start, token.start, "".join("\n" + line for line in lines) + "\n" + indent_of(self.text, token.start))

    # -- the whole --------------------------------------------------------------------------------------------------------
    def written(self):
        """The new text."""
        main = self.source.main
        edits = self.edits("", main)
        names = self.class_names()
        pieces, at = [], 0
        for body in sorted(self.source.places.values(), key=lambda one: one.kind.start):
            if body.kind.start < at:
                continue
            pieces += apply(self.text, at, body.kind.start, [])
            at = body.end.end
            if body.unit is main:
                pieces += apply(self.text, body.kind.start, at, edits)
            else:
                pieces += self._class(body, names)
        pieces += apply(self.text, at, len(self.text), [])
        if self.plan.names.domains:
            if not self.text.endswith("\n"):
                pieces.append(Piece("\n", len(self.text)))
            for symbols, name in self.plan.names.domains.items():
                pieces.append(Piece("domain %s {%s}\n" % (name, ", ".join(symbols)), len(self.text)))

        def named(found):
            return names[found[1], int(found[2])]
        return Edited(self.text, [Piece(VARIANT.sub(named, piece.text), piece.old) for piece in pieces])

    def _class(self, body, names):
        """A class with those of its variants that have other names."""
        known = self.variants.get(body.name.text, {}) if body.kind.kind == "class" else {}
        stays, copies = (), []
        for edits, number in known.items():
            if names[body.name.text, number] == body.name.text:
                stays = edits
            else:
                copies.append((edits, names[body.name.text, number]))
        pieces = apply(self.text, body.kind.start, body.end.end, stays)
        for edits, name in copies:
            pieces.append(Piece("\n\nclass " + name, body.name.start))
            pieces += apply(self.text, body.name.end, body.end.end, edits)
        return pieces
