"""The gates of `equations`, made smaller without another meaning at sets of events that can be fired, for pictures. Not
proved; tools/tests/draw.sh compares the gates before and after at each such set.

An operand is (negated, what), where what is a truth value, an event's path, or the number of a gate.
"""
from collections import Counter

from decisions import ALL, NONE, Diagrams, TooLarge
from texts import event_of


def paths(tree):
    """The sets of events of a tree that can be fired: those of its paths from the root."""
    found, entered = [()], {tree.first: ()}
    for edge in tree.edges:
        entered[edge.to_mode] = entered[edge.from_mode] + (event_of(edge.label),)
        found.append(entered[edge.to_mode])
    return found


def diagrams(equations, trees):
    """The diagrams of the sets that can be fired, with the trees in the order in which the gates name their events."""
    named = {o[1]: None for _, operands in equations.gates for o in operands if isinstance(o, tuple) and isinstance(o[1], str)}
    events = [*named, *(o[1] for o in (equations.top, equations.conflict) if isinstance(o, tuple) and isinstance(o[1], str))]
    tree_of = {event_of(edge.label): number for number, tree in enumerate(trees) for edge in tree.edges}
    return Diagrams([paths(trees[number]) for number in dict.fromkeys(tree_of[event] for event in events if event in tree_of)])


class Smaller:
    """Equal gates become one, equal operands too; constants go, and operands that say nothing more than another one.

    With the trees of modes, gates that are equal at all sets of events that can be fired become one too, and an operand goes
    where the others say the same without it. `is_all_seen` is whether the diagrams of these sets were small enough for that.
    """

    def __init__(self, equations, trees=()):
        self.uses = Counter(o[1] for _, operands in equations.gates for o in operands if o not in ("true", "false"))
        self.is_all_seen = bool(trees)
        try:
            self.take(equations, diagrams(equations, trees) if trees else None)
        except TooLarge:
            self.is_all_seen = False
            self.take(equations, None)

    def take(self, equations, sets):
        """Makes the gates."""
        self.gates, self.known, self.made, self.sets, self.tables = [], {}, [], sets, []
        for sign, operands in equations.gates:
            self.made.append(self.gate(sign, [p for o in operands for p in self.flat(sign, o)]))
        self.top = self.operand(equations.top)
        self.conflict = self.operand(equations.conflict)
        self.turn()

    def turn(self):
        """Turns each gate that is named more often with `not` than without into its opposite, from the top down."""
        turned, refs = set(), Counter()
        for negated, what in (o for o in (self.top, self.conflict) if self.is_gate(o)):
            refs[what] += -1 if negated else 1
        for number in self.order(self.top, self.conflict):
            if refs[number] < 0:
                turned.add(number)
            for negated, what in (o for o in self.gates[number][1] if self.is_gate(o)):
                refs[what] += -1 if negated != (number in turned) else 1
        for number, (sign, operands) in enumerate(self.gates):
            own = number in turned
            self.gates[number] = ("|" if own and sign == "&" else "&" if own else sign,
                                  [self.turned(o, turned, own) for o in operands])
        self.top, self.conflict = (self.turned(o, turned, False) for o in (self.top, self.conflict))

    def turned(self, operand, turned, negate):
        negated, what = operand
        also = self.is_gate(operand) and what in turned
        return ((negated != negate) != also, what)

    def operand(self, operand):
        if operand in ("true", "false"):
            return (False, operand == "true")
        negated, what = operand
        if isinstance(what, str):
            return (negated, what)
        inner, what = self.made[what - 1]
        return (False, what != negated) if isinstance(what, bool) else (inner != negated, what)

    def flat(self, sign, operand):
        """The operands of an operand that is a gate of the same kind and used here alone, else itself."""
        found = self.operand(operand)
        if not self.is_gate(found) or found[0] or self.gates[found[1]][0] != sign or self.uses[operand[1]] > 1:
            return [found]
        return self.gates[found[1]][1]

    @staticmethod
    def is_gate(operand):
        return isinstance(operand[1], int) and not isinstance(operand[1], bool)

    def gate(self, sign, operands):
        """The operand that is all (`&`) or any (`|`) of the operands."""
        neutral, found = sign == "&", {}
        for negated, what in operands:
            if isinstance(what, bool):
                if what != neutral:
                    return (False, not neutral)
            elif (not negated, what) in found:
                return (False, not neutral)
            else:
                found[(negated, what)] = None
        found = self.absorbed(sign, found) if self.sets is None else self.needed(sign, found)
        if isinstance(found, tuple):
            return found
        if not found:
            return (False, neutral)
        if len(found) == 1:
            return found[0]
        key = (sign, frozenset(found))
        if key not in self.known:
            self.known[key] = len(self.gates)
            self.gates.append((sign, found))
            if self.sets is not None:
                self.tables.append(self.table_of(sign, found))
                self.known.setdefault(self.tables[-1], self.known[key])
        return (False, self.known[key])

    def table(self, operand):
        """The sets at which an operand is true."""
        negated, what = operand
        found = self.tables[what] if self.is_gate(operand) else self.sets.of.get(what, NONE)
        return self.sets.opposite(found) if negated else found

    def table_of(self, sign, operands):
        found = ALL if sign == "&" else NONE
        for operand in operands:
            found = self.sets.join(sign, found, self.table(operand))
        return found

    def needed(self, sign, operands):
        """The operands without those that change nothing, or one operand that is the same as all of them together."""
        whole = self.table_of(sign, operands)
        if whole in (NONE, ALL):
            return (False, whole == ALL)
        other = self.sets.opposite(whole)
        for event, table in self.sets.of.items():
            if table in (whole, other):
                return (whole != table, event)
        for negated, table in ((False, whole), (True, other)):
            if table in self.known:
                return (negated, self.known[table])
        return self.news(sign, list(operands), whole)

    def news(self, sign, operands, whole):
        """The operands that are needed: those of other gates go first, where the ones before and behind say the same."""
        ordered = sorted(operands, key=lambda o: not self.is_gate(o))
        neutral, kept = ALL if sign == "&" else NONE, set()
        behind = [neutral]
        for operand in reversed(ordered):
            behind.append(self.sets.join(sign, behind[-1], self.table(operand)))
        before = neutral
        for operand, rest in zip(ordered, behind[-2::-1]):
            if self.sets.join(sign, before, rest) != whole:
                kept.add(operand)
                before = self.sets.join(sign, before, self.table(operand))
        return [operand for operand in operands if operand in kept]

    def absorbed(self, sign, operands):
        """Leaves out a gate of the other kind that has another operand among its own: a | (a & b) is a."""
        kept = []
        for operand in operands:
            if self.is_gate(operand) and not operand[0]:
                other, parts = self.gates[operand[1]]
                if other != sign and any(p in operands for p in parts):
                    continue
            kept.append(operand)
        return kept

    def order(self, *roots):
        """The gates under these operands, each before those that it names."""
        needed = {o[1] for o in roots if self.is_gate(o)}
        for number in range(len(self.gates) - 1, -1, -1):
            if number in needed:
                needed |= {o[1] for o in self.gates[number][1] if self.is_gate(o)}
        return sorted(needed, reverse=True)

    def values(self, events):
        """Whether each gate is true at a set of events."""
        found = []
        for sign, operands in self.gates:
            parts = [self.value(o, events, found) for o in operands]
            found.append(all(parts) if sign == "&" else any(parts))
        return found

    def value(self, operand, events, values):
        negated, what = operand
        truth = what if isinstance(what, bool) else what in events if isinstance(what, str) else values[what]
        return truth != negated
