"""Probabilities of events from the delays in a source: `exponential(rate)` with a mission time, and `constant(probability)`.
Not proved, and read here alone: the program keeps delays and does not read them.
"""
import math

import tokens
from command import CouldNot, shown
from hierarchy import Missing, Unknown

MOST_DEPTH = 64
OPENING = {"(": 1, ")": -1}


class Reader:
    """Reads the delays of a source."""

    def __init__(self, source):
        self.source, self.tree = source, source.tree
        self.nodes = {node.path: node for node in self.tree.nodes}
        self.tokens = tokens.tokens(source.text)
        self.at = {token.start: number for number, token in enumerate(self.tokens)}

    def fail(self, token, why):
        raise CouldNot("%s:%d:%d: %s" % (shown(self.source.file), token.line, token.column, why))

    def delay(self, member):
        """The tokens of the delay of an event, or None where it has none."""
        number, depth, found = self.at[member.name.start] + 1, 0, []
        while not (depth == 0 and self.tokens[number].kind in (",", ";")):
            depth += OPENING.get(self.tokens[number].kind, 0)
            found.append(self.tokens[number])
            number += 1
        words = [token.text for token in found]
        return found[3:-1] if words[:3] == ["(", "delay", "="] else None

    def law(self, event):
        """The name of the law of an event's delay and its value, or None where it has no delay."""
        place = self.tree.places.get(self.tree.canonical(event))
        found = self.delay(place[2]) if place and place[0] == "event" else None
        if found is None:
            return None
        if [token.kind for token in found[1:2] + found[-1:]] != ["(", ")"] or found[0].text not in ("exponential", "constant"):
            self.fail(found[0], "this delay is neither exponential(RATE) nor constant(PROBABILITY): give a number in a file")
        return found[0], self.value(found[2:-1], event.rpartition(".")[0], 0)

    def value(self, found, unit, depth):
        """The number of an expression of numbers and parameters."""
        text = Text(self, found, unit, depth)
        value = text.sum()
        if text.rest:
            self.fail(text.rest[0], "this is no expression of numbers and parameters")
        return value

    def parameter(self, token, path, unit, depth):
        """The number of a parameter of a unit: the outermost setting, or the one of its declaration."""
        if depth > MOST_DEPTH:
            self.fail(token, "parameters refer to each other without end")
        words = (unit.split(".") if unit else []) + path.split(".")
        words = self.tree.canonical(".".join(words[:-1])).split(".") + words[-1:] if words[:-1] else words
        for count in range(len(words) - 1):
            above = ".".join(words[:count])
            setting = self.setting(above, words[count], words[count + 1:])
            if setting is not None:
                return self.value(self.within(setting.value.first, setting.value.last), above, depth + 1)
        owner = ".".join(word for word in words[:-1] if word)
        member = self.declared(owner, words[-1])
        if member is None:
            self.fail(token, "`%s` is no parameter here" % path)
        begin = self.at[member.name.start] + 2
        return self.value(self.tokens[begin:self.at[member.last.start]], owner, depth + 1)

    def within(self, first, last):
        return self.tokens[self.at[first.start]:self.at[last.start] + 1]

    def members(self, path):
        return self.tree.bodies.members(self.nodes[path].scope.unit) if path in self.nodes else ()

    def setting(self, above, name, rest):
        """The setting that a unit gives to a parameter below one of its parts, or None. Those of a clone are not read."""
        for member in self.members(above):
            if member.kind == "clones" and member.name.text == name:
                raise Unknown(name)
            if member.kind == "variables" and name in [it.text for it in member.parts[1]]:
                return next((it for it in member.parts[2] if [word.text for word in it.words] == rest), None)
        return None

    def declared(self, unit, name):
        found = [it for it in self.members(unit) if it.kind in ("kept", "parameter") and it.name.text == name]
        return found[-1] if found else None


class Text:
    """An expression of numbers, parameters, signs and brackets, taken token by token."""

    def __init__(self, reader, found, unit, depth):
        self.reader, self.rest, self.unit, self.depth = reader, list(found), unit, depth
        self.last = found[0] if found else None

    def taken(self, *kinds):
        if self.rest and self.rest[0].kind in kinds:
            self.last = self.rest.pop(0)
            return self.last
        return None

    def sum(self):
        value = self.product()
        while self.taken("+", "-"):
            value = value + self.product() if self.last.kind == "+" else value - self.product()
        return value

    def product(self):
        value = self.one()
        while self.taken("*", "/"):
            sign = self.last
            factor = self.one()
            if sign.kind == "/" and factor == 0:
                self.reader.fail(sign, "this divides by zero")
            value = value * factor if sign.kind == "*" else value / factor
        return value

    def one(self):
        if self.taken("-"):
            return -self.one()
        if self.taken("("):
            value = self.sum()
            self.need(")")
            return value
        if self.taken("whole", "real"):
            return float(self.last.text)
        token = self.need("name", "owner", "main")
        path = [token]
        while self.taken("."):
            path.append(self.need("name"))
        return self.named(path)

    def need(self, *kinds):
        token = self.taken(*kinds)
        if token is None:
            self.reader.fail(self.rest[0] if self.rest else self.last, "this is no expression of numbers and parameters")
        return token

    def named(self, path):
        """The parameter that a path names; `owner` and `main` begin at those units."""
        unit, words = self.unit, [token.text for token in path]
        if path[0].kind in ("owner", "main"):
            unit, words = unit.rpartition(".")[0] if path[0].kind == "owner" else "", words[1:]
        return self.reader.parameter(path[0], ".".join(words), unit, self.depth)


def chance(law, value, time):
    """The probability of an event by the end of the mission."""
    return value if law == "constant" else -math.expm1(-value * time)


def of(source, events, time):
    """The probability of each event that has a delay, by the end of a mission time; CouldNot where a delay has another form."""
    reader, found = Reader(source), {}
    for event in events:
        try:
            law = reader.law(event)
        except (Missing, Unknown) as error:
            raise CouldNot("the delay of `%s` cannot be read from the text: give a number in a file" % event) from error
        if law is None:
            continue
        name, value = law
        if name.text == "exponential" and time is None:
            reader.fail(name, "this rate needs a mission time: --time HOURS")
        if not (value >= 0 and math.isfinite(value)) or name.text == "constant" and value > 1:
            reader.fail(name, "the delay of `%s` has the number %g" % (event, value))
        found[event] = chance(name.text, value, time)
    return found
