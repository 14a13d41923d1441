"""From AltaRica 3.0 as it is written to a text in the profile: by edits. Not proved."""
import re

import grammar
import tokens
from translate.edits import Edited, Piece, apply, is_first, line_of, indent_of, Edit
from translate.forms import Forms
from translate.forms_extends import Extended
from translate.refused import Refused
from translate.wide import Parser

INLINE = re.compile("\x01([0-9]+)\x02")
OWN = re.compile("\x03([A-Za-z_0-9]*)\x04")


class Syntax:
    """One text on its way to the profile."""

    def __init__(self, text, limits, scale):
        self.text, self.parser = text, Parser(text)
        self.items = self.parser.model()
        self.words = {token.text for token in self.parser.tokens if token.kind == "name"} | set(tokens.RESERVED)
        self.forms = Forms(self.parser, self.items, limits, scale)
        self.limits = limits
        self.extended = Extended(self.forms, self.free)
        self.own = {}

    def free(self, wish):
        """A name that the text does not have."""
        found, count = wish, 1
        while found in self.words:
            count += 1
            found = "%s__%d" % (wish, count)
        self.words.add(found)
        return found

    def edited(self):
        self.forms.numbers()
        self.forms.arrays(self.words)
        self.forms.record_assignments()
        self.forms.declarations()
        self._own_events()
        self.extended.rewrite()
        return Edited(self.text, [Piece(self._named(piece.text), piece.old) for piece in self._pieces()])

    def _own_events(self):
        """Declares the hidden events that guards and actions of synchronisations have become."""
        for unit in self.forms.units:
            names = [member.name.text for member in unit.members if member.kind == "synchronisation" and any(member.parts[1:])]
            if not names:
                continue
            for name in dict.fromkeys(names):
                self.own.setdefault(name, self.free(name + "__self"))
            own = ", ".join(self.own[name] for name in dict.fromkeys(names))
            word = self.parser.bodies[id(unit)].sections
            text = "event %s; hide %s;" % (own, own)
            if is_first(self.text, word.start):
                at = line_of(self.text, word.start)
                self.parser.edits.append(Edit(at, at, indent_of(self.text, word.start) + text + "\n"))
            else:
                self.parser.edits.append(Edit(word.start, word.start, text + " "))

    def _pieces(self):
        """The pieces of the new text: each copy of a class comes behind it, new domains come last."""
        text, edits, pieces, at = self.text, self.parser.edits, [], 0
        copies = [(self.parser.bodies[id(base)], name, changed) for name, base, changed in self.extended.copies.values()]
        for body, name, changed in sorted(copies, key=lambda copy: copy[0].end.end):
            if at < body.end.end:
                pieces += apply(text, at, body.end.end, [one for one in edits if at <= one.start < body.end.end])
                at = body.end.end
            inside = [one for one in edits if body.name.end <= one.start < at
                      and not any(other.start <= one.start < other.end for other in changed)]
            pieces.append(Piece("\n\nclass " + name, body.name.start))
            pieces += apply(text, body.name.end, at, changed + inside)
        pieces += apply(text, at, len(text), [one for one in edits if at <= one.start])
        return pieces + self._domains()

    def _domains(self):
        lines = []
        self.inline = {}
        for kind, *symbols in dict.fromkeys((token.kind, *symbols) for token, symbols in self.parser.inline):
            name = self.inline[len(self.inline)] = self.free("Domain")
            lines.append("domain %s %s" % (name, "{%s}" % ", ".join(symbols) if kind == "{" else "[%s]" % ", ".join(symbols)))
        if any(kind in ("Integer", "Real") for kinds in self.forms.kinds.values() for what, kind in kinds if what == "variables"):
            lines.append("domain Number [%d, %d]" % self.limits)
        begin = "" if self.text.endswith("\n") or not lines else "\n"
        return [Piece(begin + "".join(line + "\n" for line in lines), len(self.text))] if lines else []

    def _named(self, text):
        text = INLINE.sub(lambda found: self.inline[int(found[1])], text)
        return OWN.sub(lambda found: self.own[found[1]], text)


def limits_of(word):
    """The range of numbers of --range, or None where it is not given."""
    if word is None:
        return None
    found = re.fullmatch(r"(-?[0-9]+)\.\.(-?[0-9]+)", word)
    if not found or not 0 <= int(found[2]) - int(found[1]) < 256:
        raise Refused("--range %s is no LOW..HIGH of at most 256 numbers" % word)
    return int(found[1]), int(found[2])


def in_profile(text):
    """Whether the grammar of the profile takes the text."""
    try:
        grammar.parse(text)
    except (grammar.SyntaxFault, tokens.LexFault):
        return False
    return True


def to_profile(text, range_word=None, scale=1):
    """The text in the profile with its places (Edited), and what is to be said of it: (text, place)."""
    if scale < 1:
        raise Refused("--scale takes a number from 1 on")
    if "Number" in text and range_word and re.search(r"\bNumber\b", text):
        raise Refused("the name Number is needed for --range, and the text has it")
    syntax = Syntax(text, limits_of(range_word), scale)
    edited = syntax.edited()
    return edited, list(dict.fromkeys(syntax.parser.notes))
