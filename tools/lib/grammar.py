"""The grammar of models, for the helpers beside the program: trees with places, or the first token with which no model
goes on, with what could stand there and what was open. Not proved; tools/tests/why.sh compares its places with those
of the program.
"""
from collections import namedtuple

from tokens import tokens

Domain = namedtuple("Domain", "name symbols low high")
Unit = namedtuple("Unit", "kind name members")
Path = namedtuple("Path", "start names first last")
Setting = namedtuple("Setting", "words value first")
Member = namedtuple("Member", "kind name first last parts")
"""kind is `extends`, `variables` (parts: type, names, settings), `block` (parts: unit), `clones`, `embeds` (parts:
path), `kept`, `parameter`, `observer` (parts: type, expression), `event`, `hide` (parts: path), `transition` (parts:
guard, instruction), `synchronisation` (parts: list of (mark, path)), `assertion` (parts: instruction)."""
Expr = namedtuple("Expr", "form parts first last")
"""form is `literal`, `real`, `path`, an operator or a call; parts are expressions, or the path."""
Instr = namedtuple("Instr", "form parts first last")
"""form is `:=` (parts: path, expression), `:=:` (parts: two paths), `skip`, `{` (parts: instructions), `if` (parts:
test, instruction, instruction or None)."""

COMPARISONS = ("==", "!=", "<", "<=", ">", ">=")


class SyntaxFault(Exception):
    """The token `at` goes on with no model. `wanted` is what could stand there, `open` the forms that were open, the
    outermost first, each with its first token, and `before` the token before, or None."""

    def __init__(self, at, before, wanted, open_forms):
        super().__init__("%d:%d" % (at.line, at.column))
        self.at, self.before, self.wanted, self.open = at, before, wanted, open_forms


class Cursor:
    """Tokens taken one after the other, with what was looked for at the next one."""

    def __init__(self, text):
        self.tokens, self.number, self.wanted, self.open = tokens(text), 0, set(), []

    @property
    def now(self):
        return self.tokens[self.number]

    @property
    def last(self):
        return self.tokens[self.number - 1]

    def at(self, *kinds):
        self.wanted.update(kinds)
        return self.now.kind in kinds

    def next(self):
        self.number += 1
        self.wanted = set()
        return self.last

    def fail(self):
        before = self.last if self.number else None
        raise SyntaxFault(self.now, before, set(self.wanted), list(self.open))

    def take(self, *kinds):
        if not self.at(*kinds):
            self.fail()
        return self.next()

    def taken(self, *kinds):
        return self.next() if self.at(*kinds) else None

    def within(self, form, read):
        self.open.append((form, self.now))
        result = read()
        self.open.pop()
        return result

    def list_of(self, read):
        found = [read()]
        while self.taken(","):
            found.append(read())
        return found


class Expressions(Cursor):
    def path(self):
        first = self.now
        start = ""
        if self.at("owner", "main"):
            start = self.next().kind
            self.take(".")
        names = [self.take("name")]
        while self.taken("."):
            names.append(self.take("name"))
        return Path(start, names, first, self.last)

    def expr(self):
        return self.within("expression", self.choice)

    def choice(self):
        first = self.now
        if not self.taken("if"):
            return self.chain("or", lambda: self.chain("and", self.negation))
        parts = [self.expr()]
        self.take("then")
        parts.append(self.expr())
        self.take("else")
        parts.append(self.expr())
        return Expr("if", parts, first, self.last)

    def chain(self, word, read):
        first, parts = self.now, [read()]
        while self.taken(word):
            parts.append(read())
        return parts[0] if len(parts) == 1 else Expr(word, parts, first, self.last)

    def negation(self):
        first = self.now
        if self.taken("not"):
            return Expr("not", [self.negation()], first, self.last)
        left = self.sum()
        sign = self.taken(*COMPARISONS)
        return Expr(sign.kind, [left, self.sum()], first, self.last) if sign else left

    def sum(self):
        first, parts = self.now, [self.product()]
        while self.taken("+", "-"):
            parts.append(self.product())
        return parts[0] if len(parts) == 1 else Expr("+", parts, first, self.last)

    def product(self):
        return self.chain("*", self.minus)

    def minus(self):
        first = self.now
        if self.taken("-"):
            return Expr("-", [self.minus()], first, self.last)
        return self.primary()

    def primary(self):
        first = self.now
        if self.taken("true", "false", "whole"):
            return Expr("literal", [], first, first)
        if self.taken("real"):
            return Expr("real", [], first, first)
        if self.taken("("):
            inner = self.expr()
            self.take(")")
            return Expr(inner.form, inner.parts, first, self.last)
        if self.at("min", "max", "count"):
            word = self.next().kind
            self.take("(")
            parts = self.list_of(self.expr)
            self.take(")")
            return Expr(word, parts, first, self.last)
        if self.at("switch"):
            return self.within("switch", self.switch)
        if not self.at("owner", "main", "name"):
            self.fail()
        path = self.path()
        return Expr("path", [path], path.first, path.last)

    def switch(self):
        first, parts = self.next(), []
        self.take("{")
        self.at("case")
        while not parts or self.at("case"):
            self.take("case")
            parts.append(self.expr())
            self.take(":")
            parts.append(self.expr())
        self.take("default")
        self.take(":")
        parts.append(self.expr())
        self.take("}")
        return Expr("switch", parts, first, self.last)

    def instruction(self):
        return self.within("instruction", self.instr)

    def instr(self):
        first = self.now
        if self.taken("skip"):
            self.take(";")
            return Instr("skip", [], first, self.last)
        if self.taken("{"):
            parts = []
            while not self.at("}"):
                parts.append(self.instruction())
            self.next()
            return Instr("{", parts, first, self.last)
        if self.taken("if"):
            parts = [self.expr()]
            self.take("then")
            parts.append(self.instruction())
            parts.append(self.instruction() if self.taken("else") else None)
            return Instr("if", parts, first, self.last)
        if not self.at("owner", "main", "name"):
            self.fail()
        path = self.path()
        sign = self.take(":=", ":=:")
        parts = [path, self.expr() if sign.kind == ":=" else self.path()]
        self.take(";")
        return Instr(sign.kind, parts, first, self.last)


class Parser(Expressions):
    def model(self):
        items = [self.item()]
        while not self.at("END"):
            items.append(self.item())
        return items

    def item(self):
        if self.at("domain"):
            return self.within("domain", self.domain)
        kind = self.take("class", "block")
        return self.unit(kind)

    def domain(self):
        self.next()
        name = self.take("name")
        if self.taken("["):
            low = self.bound()
            self.take(",")
            high = self.bound()
            self.take("]")
            found = Domain(name, None, low, high)
        else:
            self.take("{")
            symbols = self.list_of(lambda: self.take("name"))
            self.take("}")
            found = Domain(name, symbols, None, None)
        self.taken(";")
        return found

    def bound(self):
        minus = self.taken("-")
        value = int(self.take("whole").text)
        return -value if minus else value

    def unit(self, kind):
        name = self.take("name")
        self.open.append(("%s %s" % (kind.kind, name.text), kind))
        members, sections = [], False
        while not self.at("end"):
            if self.at("transition", "assertion"):
                sections = True
                members += self.within(self.now.kind, self.section)
            elif not self.keyed(members):
                if sections or not self.at("name"):
                    self.fail()
                members.append(self.within("declaration", self.variables))
        self.next()
        self.open.pop()
        return Unit(kind.kind, name, members)

    def variables(self):
        first, kind = self.now, self.take("name", "Boolean")
        names, settings = self.list_of(lambda: self.take("name")), []
        if self.taken("("):
            settings = self.list_of(self.setting)
            self.take(")")
        self.take(";")
        return Member("variables", names[0], first, self.last, (kind, names, settings))

    def setting(self):
        first, words = self.now, self.set_words()
        return Setting(words, self.expr(), first)

    def set_words(self):
        """The words of a setting, up to its sign."""
        words = [self.take("name", "init", "reset")]
        while self.taken("."):
            words.append(self.take("name", "init", "reset"))
        self.take("=")
        return words

    def keyed(self, members):
        """Reads a member that begins with a reserved word, where one stands here."""
        reads = {"extends": self.extends, "Boolean": self.one_of(self.variables), "block": self.inner,
                 "clones": self.copy, "embeds": self.copy, "parameter": self.parameter, "event": self.events,
                 "observer": self.observer, "hide": self.hidden}
        if not self.at(*reads):
            return False
        kind = self.now.kind
        form = kind if kind in ("block", "event", "parameter", "observer") else "declaration"
        members += self.within(form, reads[kind])
        return True

    @staticmethod
    def one_of(read):
        return lambda: [read()]

    def extends(self):
        first, name = self.next(), self.take("name")
        self.take(";")
        return [Member("extends", name, first, self.last, ())]

    def inner(self):
        first = self.next()
        unit = self.unit(first)
        return [Member("block", unit.name, first, self.last, (unit,))]

    def copy(self):
        first, path = self.next(), self.path()
        self.take("as")
        name = self.take("name")
        self.take(";")
        return [Member(first.kind, name, first, self.last, (path,))]

    def parameter(self):
        first = self.next()
        kind = self.take("Real", "Boolean", "Integer", "name")
        name = self.take("name")
        self.take("=")
        if kind.kind == "Real":
            self.kept(";")
            parts, form = (), "kept"
        else:
            parts, form = (kind, self.expr()), "parameter"
        self.take(";")
        return [Member(form, name, first, self.last, parts)]

    def kept(self, end):
        """Reads tokens that mean nothing, up to `end`, with brackets closed."""
        some = False
        while not (self.at(end) and (some or end == ")")):
            some = True
            if self.taken("("):
                self.within("bracket", lambda: self.kept(")"))
                self.take(")")
            elif self.at("END", ")", ";") and not (end == ")" and self.now.kind == ";"):
                self.fail()
            else:
                self.next()

    def events(self):
        first, found = self.next(), []
        while True:
            name = self.take("name")
            if self.at("("):
                self.within("attributes", self.attributes)
            found.append(Member("event", name, first, self.last, ()))
            if not self.taken(","):
                break
        self.take(";")
        return found

    def attributes(self):
        self.next()
        self.kept(")")
        self.take(")")

    def observer(self):
        first = self.next()
        kind, name = self.take("Boolean", "Integer", "name"), self.take("name")
        self.take("=")
        value = self.expr()
        self.take(";")
        return [Member("observer", name, first, self.last, (kind, value))]

    def hidden(self):
        first = self.next()
        paths = self.list_of(self.path)
        self.take(";")
        return [Member("hide", p.names[-1], first, self.last, (p,)) for p in paths]

    def section(self):
        kind, found = self.next().kind, []
        if kind == "transition":
            while self.at("name"):
                found.append(self.within("transition of an event", self.transition))
        else:
            while self.at("name", "owner", "main", "skip", "{", "if"):
                first, instr = self.now, self.instruction()
                found.append(Member("assertion", None, first, self.last, (instr,)))
        return found

    def transition(self):
        name = self.take("name")
        self.take(":")
        if self.at("!", "?"):
            parts = [self.part()]
            while self.taken("&"):
                parts.append(self.part())
            self.take(";")
            return Member("synchronisation", name, name, self.last, (parts,))
        guard = self.expr()
        self.take("->")
        return Member("transition", name, name, self.last, (guard, self.instruction()))

    def part(self):
        return self.take("!", "?").kind, self.path()


def parse(text):
    """The items of the text; LexFault or SyntaxFault where it is refused."""
    return Parser(text).model()
