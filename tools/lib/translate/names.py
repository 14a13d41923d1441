"""Names for what the new model has besides the old: none that means something there already. Not proved."""
import tokens


class Names:
    """Members of units, modes and domains."""

    def __init__(self, source, elaboration):
        self.words, self.elaboration = source.words, elaboration
        bodies = source.bodies
        self.members = {token.text for scope in bodies.scopes() for token, _, _ in bodies.names(scope.unit)}
        self.symbols = bodies.symbols | set(tokens.RESERVED)
        self.of_unit, self.given, self.modes, self.top, self.domains = {}, set(), set(), set(), {}

    def member(self, unit, wish):
        """A name for a new member of a unit."""
        given, scope = self.of_unit.setdefault(unit, set()), self.elaboration.units[unit].scope
        find = self.elaboration.bodies.find
        found = _first(wish, lambda name: find(scope, name) or name in self.symbols or name in self.modes or name in given)
        given.add(found)
        self.given.add(found)
        return found

    def mode(self, wish, taken):
        """A symbol for a mode; the old one where no member of any unit has its name."""
        while wish in self.members or wish in self.given or not wish.isidentifier():
            wish += "__mode"
        found = _first(wish, lambda name: name in taken or name in self.members or name in self.given)
        self.modes.add(found)
        return found

    def upper(self, wish):
        """A name for a new class or domain."""
        found = _first(wish, lambda name: name in self.words or name in self.top)
        self.top.add(found)
        return found

    def domain(self, symbols):
        """The name of the domain of some symbols; one for each list of symbols."""
        key = tuple(symbols)
        if key not in self.domains:
            self.domains[key] = self.upper("Modes")
        return self.domains[key]


def _first(wish, taken):
    found, count = wish, 1
    while taken(found):
        count += 1
        found = "%s__%d" % (wish, count)
    return found
