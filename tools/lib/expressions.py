"""Expressions of the flat text: what they name, and which values they may have. Not proved; used to say causes.

A value is True, False, a whole number, or the name of a symbol. An expression is read with a set of values for each variable:
one value where it is known, none where it does not follow yet, ANY where it may be anything. What comes out is the set of
values that may follow; it is never too small. In a text that `symbols` has read, a symbol with the name of a variable has `'`
before it.
"""
import functools
import itertools
import re
from collections import namedtuple

LEAST, LARGEST = -2**63, 2**63 - 1
MOST = 64
"""The most values of a set; of more it is ANY."""
ANY, NONE = None, frozenset()
PIECE = re.compile(r" *(:|-?[0-9]+|==|!=|<=|>=|'?[A-Za-z_][A-Za-z0-9_.]*|[(){},<>+*-])")
CALLS = ("min", "max", "count")
COMPARISONS = ("==", "!=", "<", "<=", ">", ">=")

Node = namedtuple("Node", "form parts")
"""form is `word` (parts: the word, its number among the pieces), `not`, `if`, `minus`, a call, `switch` (parts: tests and
values in turn, the default last), or an operator with two parts."""


class NotKnown(Exception):
    """The expression has no value yet, or may have several."""


def value_of(text):
    """A value as the program writes it."""
    if text in ("true", "false"):
        return text == "true"
    return int(text) if re.fullmatch(r"-?[0-9]+", text) else text.lstrip("'")


def text_of(value):
    return str(value).lower() if isinstance(value, bool) else str(value)


def clamp(number):
    return max(LEAST, min(LARGEST, number))


class Reader:
    """Takes the pieces of a text one after the other."""

    def __init__(self, text):
        self.pieces, self.at = PIECE.findall(text) + [""], 0

    def next(self):
        self.at += 1
        return self.pieces[self.at - 1]

    @property
    def now(self):
        return self.pieces[self.at]

    def whole(self):
        piece = self.next()
        if piece == "(":
            return self.bracket()
        if piece in CALLS and self.now == "(":
            return self.call(piece)
        if piece == "switch" and self.now == "{":
            return self.switch()
        return Node("word", (piece, self.at - 1))

    def call(self, word):
        parts = []
        while self.next() != ")":
            parts.append(self.whole())
        return Node(word, parts)

    def switch(self):
        self.next()
        parts = []
        while self.next() == "case":
            parts.append(self.whole())
            self.next()
            parts.append(self.whole())
        self.next()
        parts.append(self.whole())
        self.next()
        return Node("switch", parts)

    def bracket(self):
        if self.now == "not":
            self.next()
            found = Node("not", [self.whole()])
        elif self.now == "if":
            parts = []
            for _ in range(3):
                self.next()
                parts.append(self.whole())
            found = Node("if", parts)
        elif self.now == "-":
            self.next()
            found = self.chain(Node("minus", [self.whole()]))
        else:
            found = self.chain(self.whole())
        self.next()
        return found

    def chain(self, left):
        while self.now not in (")", ""):
            # A minus sign and a number are one piece.
            if re.fullmatch(r"-[0-9]+", self.now):
                left = Node("+", [left, Node("word", (self.next(), self.at - 1))])
            else:
                left = Node(self.next(), [left, self.whole()])
        return left


@functools.lru_cache(1 << 16)
def parsed(text):
    """The tree of an expression."""
    return Reader(text).whole()


def may(values, value):
    return values is ANY or value in values


def union(first, second):
    return ANY if first is ANY or second is ANY else first | second


def whole_of(word, parts):
    """What a call or an operator on numbers makes of one value for each part."""
    if word == "count":
        return sum(parts)
    if word in ("min", "max"):
        return {"min": min, "max": max}[word](parts)
    left, right = parts
    return {"<": lambda: left < right, "<=": lambda: left <= right, ">": lambda: left > right, ">=": lambda: left >= right,
            "+": lambda: clamp(left + right), "-": lambda: clamp(left - right), "*": lambda: clamp(left * right),
            "==": lambda: left == right, "!=": lambda: left != right}[word]()


def combined(word, parts):
    """The values of a call or an operator, from those of its parts."""
    if any(part is not ANY and not part for part in parts):
        return NONE
    count = 1
    for part in parts:
        count = MOST + 1 if part is ANY else count * len(part)
        if count > MOST:
            return frozenset((True, False)) if word in COMPARISONS else ANY
    return frozenset(whole_of(word, one) for one in itertools.product(*parts))


def joined(word, left, right):
    """The values of `and` or `or`, which one part alone may decide."""
    last = word == "or"
    found = {last} if may(left, last) or may(right, last) else set()
    return frozenset(found | ({not last} if may(left, not last) and may(right, not last) else set()))


def chosen(parts):
    """The values of a `switch`: those of the first branch whose test is true."""
    found = NONE
    for test, value in zip(parts[:-1:2], parts[1::2]):
        if may(test, True):
            found = union(found, value)
        if not may(test, False):
            return found
    return union(found, parts[-1])


def values_at(node, look):
    """The values of a tree, where `look` gives those of a word."""
    if node.form == "word":
        return look(node.parts[0])
    parts = [values_at(part, look) for part in node.parts]
    if node.form in ("and", "or"):
        return joined(node.form, *parts)
    if node.form == "not":
        return frozenset(v for v in (True, False) if may(parts[0], not v))
    if node.form == "if":
        test, first, second = parts
        return union(first if may(test, True) else NONE, second if may(test, False) else NONE)
    if node.form == "switch":
        return chosen(parts)
    if node.form == "minus":
        return combined("*", [parts[0], frozenset((-1,))])
    return combined(node.form, parts)


def values(text, variables, known):
    """The values that an expression may have, from the sets of values of variables; a variable that `known` lacks has none."""
    return values_at(parsed(text), lambda word: known.get(word, NONE) if word in variables else frozenset((value_of(word),)))


def value(text, variables, known):
    """The value of an expression from one value for each variable, or None where it does not follow from these."""
    def look(word):
        if word not in variables:
            return frozenset((value_of(word),))
        return frozenset((known[word],)) if word in known else NONE

    found = values_at(parsed(text), look)
    return next(iter(found)) if found is not ANY and len(found) == 1 else None


def evaluate(text, variables, known):
    """The value of an expression; NotKnown where it does not follow from the values that are known."""
    found = value(text, variables, known)
    if found is None:
        raise NotKnown(text)
    return found
