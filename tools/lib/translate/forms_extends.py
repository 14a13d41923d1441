"""`extends C (p = v);`: the class is written once more, with these values. And a block that is extended becomes a class.
Not proved."""
from translate.edits import Edit
from translate.forms import dotted
from translate.refused import Refused
from translate.wide import ATTRIBUTES


class Extended:
    """The copies of classes that settings of `extends` need: for each its name, its class and the edits of its text."""

    def __init__(self, forms, upper):
        self.forms, self.upper, self.copies = forms, upper, {}

    def rewrite(self):
        """Gives each `extends` with settings a copy of its class."""
        for unit in self.forms.units:
            for member in unit.members:
                if member.kind == "extends":
                    self._extends(member)

    def _extends(self, member):
        base = self.forms.top.get(member.name.text)
        if base is None:
            return
        if base.kind == "block":
            self._block(base)
        settings = [(one.words, self.forms.rendered(one.value.first.start, one.last.end)) for one in member.parts[0]]
        if settings:
            name = self.copy(base, settings)
            self.forms.note("%s with these values is %s" % (base.name.text, name), member.name)
            self.forms.parser.edits.append(Edit(member.name.start, member.last.end, name + ";"))

    def _block(self, base):
        token = self.forms.parser.bodies[id(base)].kind
        edit = Edit(token.start, token.end, "class")
        if edit not in self.forms.parser.edits:
            self.forms.parser.edits.append(edit)
            self.forms.note("block %s is extended: it becomes a class" % base.name.text, base.name)

    def copy(self, base, settings):
        """The name of the class with these settings: (words, text of the value)."""
        key = base.name.text, tuple((dotted(words), text) for words, text in settings)
        if key not in self.copies:
            name = self.upper(base.name.text)
            self.copies[key] = name, base, []
            self.copies[key][2].extend(self._edits(base, settings))
        return self.copies[key][0]

    def _edits(self, base, settings):
        edits, left = [], list(settings)
        for member in base.members:
            if member.kind == "parameter":
                mine = [one for one in left if [word.text for word in one[0]] == [member.name.text]]
                for one in mine:
                    left.remove(one)
                    edits.append(Edit(member.parts[2].start, member.last.start, one[1]))
            elif member.kind == "variables":
                names = {token.text for group in member.parts[1] for token in group.names}
                mine = [one for one in left if one[0][0].text in names]
                left = [one for one in left if one not in mine]
                if mine:
                    edits.append(Edit(member.first.start, member.last.end, self._declaration(base, member, mine)))
        return edits + self._above(base, left)

    def _declaration(self, base, member, settings):
        """A declaration of several names as one for each, with further settings."""
        kind, groups = member.parts
        lines = []
        for group in groups:
            texts, changed = self.forms.settings(base, kind, group)
            if not changed:
                texts = [self.forms.rendered(one.first.start, one.last.end) for one in group.settings]
            for token in group.names:
                mine = {dotted(words[1:]) or "init": text for words, text in settings if words[0].text == token.text}
                own = [text for text in texts if text.partition("=")[0].strip() not in mine]
                if set(mine) & {"init", "reset"}:
                    own = [text for text in own if text.partition("=")[0].strip() not in ("init", "reset")]
                own += ["%s = %s" % row for row in mine.items()]
                behind = " (%s)" % ", ".join(own) if own else ""
                lines.append("%s %s%s;" % (self.forms.parser.type_text(kind), token.text, behind))
        return " ".join(lines)

    def _above(self, base, settings):
        """The settings that are left go to the classes that this one extends."""
        edits = []
        for member in base.members:
            above = self.forms.top.get(member.name.text) if member.kind == "extends" else None
            if above is None:
                continue
            known = self._names(above)
            mine = [one for one in settings if one[0][0].text in known]
            settings = [one for one in settings if one not in mine]
            words = {tuple(w.text for w in one[0]) for one in mine}
            own = [(one.words, self.forms.rendered(one.value.first.start, one.last.end)) for one in member.parts[0]
                   if tuple(w.text for w in one.words) not in words]
            if mine or own:
                edits.append(Edit(member.name.start, member.last.end, self.copy(above, own + mine) + ";"))
        for words, _ in settings:
            if words[-1].text in ATTRIBUTES:
                self.forms.note("%s is left out: attributes of events have no meaning here" % dotted(words), words[0])
            else:
                raise Refused("class %s has no member %s" % (base.name.text, words[0].text), words[0])
        return edits

    def _names(self, unit):
        """The names of members of a class and of those that it extends."""
        found = set()
        for member in unit.members:
            if member.kind == "variables":
                found.update(token.text for group in member.parts[1] for token in group.names)
            elif member.kind == "extends":
                above = self.forms.top.get(member.name.text)
                found |= self._names(above) if above is not None else set()
            elif member.kind in ("parameter", "event"):
                found.add(member.name.text)
        return found
