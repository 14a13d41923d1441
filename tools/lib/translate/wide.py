"""Reads models of AltaRica 3.0 as it is written. Their declarations are kept as they are, for the modules named
`forms_..`. Not proved."""
from collections import namedtuple

import grammar
from grammar import Expr, Member
from translate import source
from translate.edits import Edit
from translate.refused import Refused
from translate.wide_expressions import NEVER, Expressions, Number

Names = namedtuple("Names", "names settings open close")
"""Names of a declaration with settings of their own: its tokens `(` and `)`, or None."""
Setting = namedtuple("Setting", "words value first last")
ATTRIBUTES = {"delay", "expectation", "policy", "weight", "priority", "hidden"}
TYPES = ("name", "Boolean", "Integer", "Real")


class Parser(Expressions):
    """The grammar of AltaRica 3.0."""

    def model(self):
        items = []
        while not self.at("END"):
            items.append(self.item())
        return [one for one in items if one is not None]

    def item(self):
        if self.is_word("operator", "record"):
            return self.operator() if self.now.text == "operator" else self.record()
        return super().item()

    def domain(self):
        begun = self.number
        self.next()
        name = self.take("name")
        if self.at("["):
            self.number = begun
            return super().domain()
        self.take("{")
        symbols = [self.take("name")]
        while self.at(","):
            comma = self.next()
            if self.at("}"):
                self.replace(comma, "")
                break
            symbols.append(self.take("name"))
        self.take("}")
        self.taken(";")
        return grammar.Domain(name, symbols, None, None)

    def operator(self):
        first = self.next()
        self.take(*TYPES)
        name = self.take("name")
        self.take("(")
        names = [name.text for _, name in self.list_of(lambda: (self.take(*TYPES), self.take("name")))]
        self.take(")")
        used, self.used = self.used, set()
        sign = self.taken("=", ":=")
        body = self.expr()
        text = self.rendered(body.first, body.last)
        self.used = used | self.used - set(names)
        last = self.take(";") if sign else self.taken(";")
        last = self.next() if self.at("end") else last or self.take("end")
        self.operators[name.text] = names, text
        self.edits.append(Edit(first.start, last.end, ""))
        self.notes.append(("operator %s is put in place where it is used" % name.text, name.start))

    def record(self):
        first = self.next()
        name = self.take("name")
        fields = []
        while not self.at("end"):
            fields.append(self.variables())
        last = self.next()
        self.replace(first, "class")
        self.notes.append(("record %s becomes a class of flows" % name.text, name.start))
        unit = grammar.Unit("class", name, fields)
        self.records.append(unit)
        self.bodies[id(unit)] = source.Body(unit, first, name, None, last)
        return unit

    # -- declarations ---------------------------------------------------------------------------------------------------
    def keyed(self, members):
        if self.is_word("for", "package", "import"):
            self.fail()
        if self.at("Integer", "Real", "{", "["):
            members.append(self.within("declaration", self.variables))
            return True
        return super().keyed(members)

    def variables(self):
        first = self.now
        kind = self.inline_domain() if self.at("{", "[") else self.take(*TYPES)
        self.declaring = kind.kind
        groups, names = [], []
        while True:
            names.append(self.declared_name())
            settings, opened, closed = [], None, None
            if self.at("("):
                opened = self.next()
                settings = self.list_of(self.setting)
                closed = self.take(")")
                groups.append(Names(names, settings, opened, closed))
                names = []
            if not self.at(","):
                break
            comma = self.next()
            if closed:
                self.replace(comma, "; " + self.type_text(kind))
        self.take(";")
        if names:
            groups.append(Names(names, [], None, None))
        return Member("variables", groups[0].names[0], first, self.last, (kind, groups))

    def type_text(self, kind):
        return "Number" if kind.kind in ("Integer", "Real") else self.inline_name(kind) if kind.kind in "{[" else kind.text

    def inline_domain(self):
        """A domain in place of a type; the token that opens it is kept."""
        first = self.next()
        if first.kind == "{":
            symbols = [token.text for token in self.list_of(lambda: self.take("name"))]
            close = self.take("}")
        else:
            low = self.bound()
            self.take(",")
            symbols = [str(low), str(self.bound())]
            close = self.take("]")
        self.inline.append((first, symbols))
        self.edits.append(Edit(first.start, close.end, self.inline_name(first)))
        return first

    def inline_name(self, first):
        """The name of an inline domain: one for each list of symbols."""
        lists = list(dict.fromkeys((token.kind, *symbols) for token, symbols in self.inline))
        key = next((token.kind, *symbols) for token, symbols in self.inline if token is first)
        return "\x01%d\x02" % lists.index(key)

    def declared_name(self):
        name = self.take("name")
        if self.at("["):
            self.next()
            count = self.take("whole")
            close = self.take("]")
            self.arrays[name.text] = (name, int(count.text), close)
        return name

    def setting(self):
        first, words = self.now, self.set_words()
        context, self.context = self.context, self.setting_context(words)
        if self.at("string"):
            value = Expr("string", [], self.now, self.now)
            self.replace(self.now, plain_word(self.next().text))
        elif words[-1].text in ATTRIBUTES and len(words) > 1:
            value = self.attribute_value()
        else:
            value = self.expr()
        self.context = context
        return Setting(words, value, first, self.last)

    def attribute_value(self):
        """The value of an attribute of an event, which means nothing."""
        begun, depth = self.now, 0
        while depth or not self.at(",", ")"):
            if self.at("END", ";"):
                self.fail()
            depth += self.at("(") - self.at(")")
            self.next()
        return Expr("kept", [], begun, self.last)

    def setting_context(self, words):
        if words[-1].kind == "name":
            return words[-1].text
        if len(words) > 1:
            return words[-2].text
        return "" if self.declaring in ("Integer", "Real") else NEVER

    def extends(self):
        first, name = self.next(), self.take("name")
        settings = []
        if self.taken("("):
            settings = self.list_of(self.setting)
            self.take(")")
        self.take(";")
        return [Member("extends", name, first, self.last, (settings,))]

    def events(self):
        found = super().events()
        for member in found:
            for number, token in enumerate(self.attributes_of.get(member.name.start, ())):
                if token.kind == "string":
                    self.replace(token, plain_word(token.text))
                words = [word.text for word in self.attributes_of[member.name.start][number:number + 3]]
                if words == ["hidden", "=", "true"]:
                    name = member.name.text
                    self.notes.append(("event %s (hidden = true) is hidden: hide %s" % (name, name), member.name.start))
                    self.insert(self.last.end, " hide %s;" % name)
        return found

    def parameter(self):
        first = self.next()
        kind = self.take(*TYPES)
        name = self.take("name")
        self.take("=")
        begun = self.now
        context, self.context = self.context, name.text
        if kind.kind == "Real":
            self.kept(";")
            parts = (kind, None)
            self.numbers += [Number(token, name.text) for token in self.tokens[self.number_of(begun):self.number]
                             if token.kind in ("whole", "real")]
        else:
            parts = (kind, self.expr())
        self.context = context
        for token in self.tokens[self.number_of(begun):self.number]:
            if token.kind == "string":
                self.replace(token, plain_word(token.text))
        self.take(";")
        return [Member("parameter", name, first, self.last, (*parts, begun))]

    def observer(self):
        first = self.next()
        kind, name = self.take("Boolean", "Integer", "Real", "name"), self.take("name")
        if kind.kind == "Real":
            self.replace(kind, "Integer")
        self.take("=")
        value = self.expr()
        self.take(";")
        return [Member("observer", name, first, self.last, (kind, value))]

    def copy(self):
        first, path = self.next(), self.path()
        self.take("as")
        name = self.take("name")
        if self.at("("):
            raise Refused("a clone with settings is not translated: make a class of it", self.now)
        self.take(";")
        return [Member(first.kind, name, first, self.last, (path,))]

    def section(self):
        if self.at("transition"):
            return super().section()
        self.next()
        found = []
        while self.at("name", "owner", "main", "skip", "{", "if", "switch"):
            first, instr = self.now, self.instruction()
            found.append(Member("assertion", None, first, self.last, (instr,)))
        return found

    def transition(self):
        name = self.take("name")
        self.take(":")
        guard, first_part = None, self.now
        if not self.at("!", "?"):
            guard = self.expr()
            if not self.taken("&"):
                self.take("->")
                action = self.instruction()
                return Member("transition", name, name, self.last, (guard, action))
        first_part = self.now
        parts = [self.part()]
        while self.taken("&"):
            parts.append(self.part())
        last_part, action = self.last, None
        if self.taken("->"):
            action = self.instruction()
        else:
            self.take(";")
        if guard is not None or action is not None:
            self._guarded(name, guard, (first_part, last_part), action)
        return Member("synchronisation", name, name, self.last, (parts, guard, action))

    def _guarded(self, name, guard, parts, action):
        """A synchronisation with a guard or an action of its own: these become a hidden event, a part of it."""
        own = "\x03%s\x04" % name.text
        done = self.rendered(action.first, action.last) if action else "skip;"
        taken = self.rendered(*parts)
        test = self.rendered(guard.first, guard.last) if guard else "true"
        text = "%s: %s -> %s %s: !%s & %s;" % (own, test, done, name.text, own, taken)
        self.edits.append(Edit(name.start, self.last.end, text))
        self.notes.append(("%s: its own guard and action become a hidden event that is a part of it" % name.text, name.start))


def plain_word(text):
    """A string as a word, for where it is kept and not read."""
    found = "".join(sign if sign.isalnum() and sign.isascii() else "_" for sign in text.strip('"'))
    return found if found and not found[0].isdigit() else "_" + found
