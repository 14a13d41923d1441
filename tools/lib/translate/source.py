"""The text of a model in the profile, with the places that edits need: signs of sums, attributes of events, ends of
bodies. Not proved."""
from collections import namedtuple

import grammar
import hierarchy
import tokens

Body = namedtuple("Body", "unit kind name sections end")
"""Places in the text of a class or a block: its tokens `class` or `block`, its name, the first word of a section (or
None), and `end`."""


class Parser(grammar.Parser):
    """The grammar of the profile; sums keep their signs, events their attributes, and bodies their places."""

    def __init__(self, text):
        super().__init__(text)
        self.bodies, self.attributes_of, self.kept_of = {}, {}, {}

    def sum(self):
        first, left = self.now, self.product()
        while self.at("+", "-"):
            sign = self.next().kind
            left = grammar.Expr(sign, [left, self.product()], first, self.last)
        return left

    def unit(self, kind):
        found = super().unit(kind)
        first = next((m for m in found.members if m.kind in ("transition", "synchronisation", "assertion")), None)
        self.bodies[id(found)] = Body(found, kind, found.name, first and self.word_of(first), self.last)
        return found

    def word_of(self, member):
        """The word `transition` or `assertion` of the section of a member."""
        at = self.number_of(member.first) - 1
        while self.tokens[at].kind not in ("transition", "assertion"):
            at -= 1
        return self.tokens[at]

    def number_of(self, token):
        """The number of a token in the text."""
        low, high = 0, len(self.tokens) - 1
        while low < high:
            middle = (low + high) // 2
            low, high = (middle + 1, high) if self.tokens[middle].start < token.start else (low, middle)
        return low

    def attributes(self):
        name = self.last
        begun = self.number
        super().attributes()
        self.attributes_of[name.start] = self.tokens[begun:self.number]

    def parameter(self):
        found = super().parameter()
        member = found[0]
        begun, end = self.number_of(member.name) + 2, self.number - 1
        self.kept_of[member.name.start] = self.tokens[begun:end]
        return found


class Source:
    """A text that was read: its items, its bodies by the identity of their units, and what stands at its places."""

    def __init__(self, text, main=None):
        parser = Parser(text)
        self.text, self.items = text, parser.model()
        self.tokens, self.number_of, self.word_of = parser.tokens, parser.number_of, parser.word_of
        self.places, self.attributes, self.kept = parser.bodies, parser.attributes_of, parser.kept_of
        self.bodies = hierarchy.Bodies(self.items, main)
        self.main = self.bodies.main
        self.words = {token.text for token in self.tokens if token.kind == "name"} | set(tokens.RESERVED)

    def body(self, unit):
        return self.places[id(unit)]
