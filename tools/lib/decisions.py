"""Sets of events that can be fired, as decision diagrams: a level for each tree of modes, whose path is chosen there. Equal sets
are the same number, so no set is gone through alone. Not proved; tools/tests/draw.sh compares the gates that are made with it."""

MOST_NODES, MOST_JOINED = 100_000, 1_000_000
NONE, ALL = 0, 1


class TooLarge(Exception):
    """The diagrams would have more nodes than they may, or take too long."""


class Diagrams:
    """The diagrams over these choices: for each tree its paths, each as a tuple of events."""

    def __init__(self, choices):
        self.widths = [len(choice) for choice in choices]
        self.nodes, self.known, self.joined = [(len(choices), ()), (len(choices), ())], {}, {}
        self.of = {}
        for level, choice in enumerate(choices):
            for event in dict.fromkeys(event for path in choice for event in path):
                self.of[event] = self.node(level, tuple(ALL if event in path else NONE for path in choice))

    def node(self, level, below):
        """The diagram that goes on as one of these."""
        if len(set(below)) == 1:
            return below[0]
        key = (level, below)
        if key not in self.known:
            if len(self.nodes) >= MOST_NODES:
                raise TooLarge
            self.known[key] = len(self.nodes)
            self.nodes.append(key)
        return self.known[key]

    def join(self, sign, one, other):
        """What is in both (`&`), or in any of two (`|`)."""
        nothing, neutral = (NONE, ALL) if sign == "&" else (ALL, NONE)
        if nothing in (one, other):
            return nothing
        if one in (other, neutral):
            return other
        if other == neutral:
            return one
        key = (sign, min(one, other), max(one, other))
        if key not in self.joined:
            if len(self.joined) >= MOST_JOINED:
                raise TooLarge
            level = min(self.nodes[one][0], self.nodes[other][0])
            pairs = zip(self.below(one, level), self.below(other, level))
            self.joined[key] = self.node(level, tuple(self.join(sign, *pair) for pair in pairs))
        return self.joined[key]

    def opposite(self, one):
        """What is not in it."""
        if one in (NONE, ALL):
            return ALL if one == NONE else NONE
        key = ("not", one)
        if key not in self.joined:
            level, below = self.nodes[one]
            self.joined[key] = self.node(level, tuple(map(self.opposite, below)))
        return self.joined[key]

    def below(self, one, level):
        """How a diagram goes on for each choice of a level."""
        return self.nodes[one][1] if self.nodes[one][0] == level else (one,) * self.widths[level]
