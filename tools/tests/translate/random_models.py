"""Random small models: units with two to five modes entered several ways, second states, synchronisations of all
kinds, hidden parts, starts that are set from outside, moves back, contradicting flows; and events to drop."""
import random

MODES = "ABCDE"


class Random:
    """One model: `text`, and the events to drop."""

    def __init__(self, seed):
        self.random = random.Random(seed)
        self.lines = ["domain M {A, B, C, D, E}"]
        kinds = [self._class(number) for number in range(self.random.randint(1, 2))]
        self.units, body = [], []
        for number in range(self.random.randint(2, 3)):
            kind = self.random.randrange(len(kinds))
            self.units.append(("u%d" % number, kinds[kind]))
            body.append("  K%d u%d%s;" % (kind, number, " (s.init = B)" if self.random.random() < 0.15 else ""))
        self.text = "\n".join(self.lines + ["block Main", *self._main(body), "end"]) + "\n"
        self.drop = [unit + "." + event for unit, (_, events, _) in self.units for event in events if self._chance(0.12)]
        self.drop += ["c%d" % number for number in range(self.syncs) if self._chance(0.08)]

    def _chance(self, share):
        return self.random.random() < share

    def _class(self, number):
        modes = MODES[:self.random.randint(2, 4)]
        two = self._chance(0.3)
        events, transitions = [], []
        for count in range(self.random.randint(1, 3)):
            events.append("e%d" % count)
            transitions += [self._move(events[-1], modes, two) for _ in range(self.random.randint(1, 2))]
        if two:
            events.append("sw")
            transitions.append("sw: %s -> on := not on;" % self.random.choice(["on", "not on", "s == A", "true"]))
        second = "\n  Boolean on (init = %s);" % self.random.choice(["true", "false"]) if two else ""
        self.lines.append("class K%d\n  M s (init = A);%s\n  event %s;\n  transition\n    %s\nend"
                          % (number, second, ", ".join(events), "\n    ".join(transitions)))
        return modes, events, two

    def _move(self, event, modes, two):
        first = self.random.randrange(len(modes) - 1)
        last = self.random.randrange(first + 1, len(modes))
        if self._chance(0.15):
            first, last = last, first
        guard = "s != %s" % modes[last] if self._chance(0.2) else "s == %s" % modes[first]
        if two and self._chance(0.5):
            guard = "(%s) and %s" % (guard, self.random.choice(["on", "not on"]))
        action = "s := %s;" % modes[last]
        if two and self._chance(0.3):
            action = "{ %s on := %s; }" % (action, self.random.choice(["true", "false", "not on"]))
        return "%s: %s -> %s" % (event, guard, action)

    def _synchronisations(self):
        found, hidden = [], []
        for number in range(self.random.choice([0, 1, 1, 1, 2, 2])):
            parts, mark = [], self.random.choice(["?", "?", "!", "mixed"])
            for unit, (_, events, _) in self.random.sample(self.units, self.random.randint(2, len(self.units))):
                event = self.random.choice(events)
                parts.append("%s%s.%s" % (self.random.choice("!?") if mark == "mixed" else mark, unit, event))
                if self._chance(0.25):
                    hidden.append("%s.%s" % (unit, event))
            found.append("c%d: %s;" % (number, " & ".join(parts)))
        self.syncs = len(found)
        return found, list(dict.fromkeys(hidden))

    def _test(self):
        unit, (modes, _, two) = self.random.choice(self.units)
        if two and self._chance(0.3):
            return self.random.choice(["%s.on", "not %s.on"]) % unit
        return "%s.s %s %s" % (unit, self.random.choice(["==", "!="]), self.random.choice(modes[1:]))

    def _observer(self, depth, flows):
        if not depth or self._chance(0.2):
            return self.random.choice(flows + [self._test() for _ in range(3)])
        sign = self.random.choice(["and", "and", "or"])
        return "(%s %s %s)" % (self._observer(depth - 1, flows), sign, self._observer(depth - 1, flows))

    def _main(self, body):
        syncs, hidden = self._synchronisations()
        if syncs:
            body.append("  event %s;" % ", ".join("c%d" % number for number in range(len(syncs))))
        flows, assertions = ["f%d" % number for number in range(self.random.randint(0, 2))], []
        for name in flows:
            body.append("  Boolean %s (reset = false);" % name)
            assertions.append("%s := %s %s (%s);" % (name, self._test(), self.random.choice(["and", "or"]), self._test()))
        if self._chance(0.12):
            body.append("  Boolean clash (reset = false);")
            assertions += ["if %s then clash := %s;" % (self._test(), word) for word in ("true", "false")]
        body += ["  observer Boolean o%d = %s;" % (number, self._observer(2, flows)) for number in range(2)]
        body += ["  hide %s;" % ", ".join(hidden)] if hidden else []
        for word, lines in (("transition", syncs), ("assertion", assertions)):
            body += ["  " + word, *["    " + line for line in lines]] if lines else []
        return body
