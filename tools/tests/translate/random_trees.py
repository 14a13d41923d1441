"""Random models whose units are deep: classes that extend others and have units of classes, clones of both and of blocks,
aliases, settings from above, parameters and flows in guards, synchronisations at each level; and events to drop."""
import random

MODES = "ABCD"


class RandomTree:
    """One model: `text`, and the events to drop."""

    def __init__(self, seed):
        self.random = random.Random(seed)
        self.lines = ["domain M {A, B, C, D}", "domain N [0, 2]"]
        self.events = ["move"] + ["skip_over"] * self._chance(0.5)
        self._base()
        self._leaf("First", self._chance(0.5))
        self._leaf("Second", self._chance(0.3))
        self._pair()
        self._main()
        self.text = "\n".join(self.lines) + "\n"

    def _chance(self, share):
        return self.random.random() < share

    def _guard(self, mode):
        return self.random.choice(["s == %s", "s == %s", "s != C and s != %s", "s == %s and level > 0", "s == %s and live"]) % mode

    def _base(self):
        """The class that all leaves extend: its state, a parameter, and a flow that guards may read."""
        self.lines += ["class Base // has the state", "  M s (init = A);", "  parameter N level = 1;",
                       "  Boolean live (reset = false);", "  event %s;" % ", ".join(self.events), "  transition"]
        for event in self.events:
            for _ in range(self.random.randint(1, 2)):
                first, last = sorted(self.random.sample(range(4), 2))
                self.lines.append("    %s: %s -> s := %s;" % (event, self._guard(MODES[first]), MODES[last]))
        self.lines += ["  assertion live := s != D;", "end"]

    def _leaf(self, name, has_own):
        self.lines += ["class %s" % name, "  extends Base;"]
        if has_own:
            choose = self.random.choice
            self.lines += ["  Boolean on, spare (init = %s);" % choose(["true", "false"]), "  event turn, end_it;", "  transition",
                           "    turn: %s -> on := not on;" % choose(["on", "not on", "s == A", "spare"]),
                           "    end_it: %s -> { s := D; %s }" % (choose(["on and s == B", "not on", "s == C"]),
                                                              choose(["on := false;", "spare := false;", ""]))]
        self.lines.append("end")

    def _parts(self, units, count):
        marks = self.random.choice(["?", "!", "?!"])
        some = self.random.sample(units, min(count, len(units)))
        return " & ".join("%s%s.%s" % (self.random.choice(marks), unit, self.random.choice(self.events)) for unit in some)

    def _pair(self):
        setting = self.random.choice(["", " (s.init = B)", " (level = 0)", " (level = 2)"])
        self.lines += ["class Pair", "  First a, b%s;" % setting, "  Second c;"]
        if self._chance(0.6):
            self.lines += ["  event both;", "  transition both: %s;" % self._parts(["a", "b", "c"], 2)]
        sign = self.random.choice(["and", "or"])
        self.lines += ["  Boolean lost (reset = false);", "  assertion lost := a.s == D %s (b.s != A and c.live);" % sign, "end"]

    def _main(self):
        self.lines += ["block Main"]
        self.units = self._units()[:3]
        syncs = ["    k%d: %s;" % (number, self._parts(self.units, 2)) for number in range(self.random.choice([0, 1, 1, 2]))]
        if syncs:
            self.lines.append("  event %s;" % ", ".join("k%d" % number for number in range(len(syncs))))
        for number in range(2):
            tests = self._test(), self.random.choice(["and", "or"]), self._test()
            self.lines.append("  observer Boolean o%d = %s %s %s;" % (number, *tests))
        if self._chance(0.3):
            self.lines.append("  hide %s.move;" % self.units[0])
        self.lines += (["  transition", *syncs] if syncs else []) + ["end"]
        self.drop = ["%s.%s" % (unit, event) for unit in self.units for event in self.events
                     if self._chance(0.15) and unit != "other"]

    def _units(self):
        """Declares the units of the main block; answers paths of leaves."""
        setting = self.random.choice(["", " (a.s.init = C)", " (c.level = 0, b.s.init = A)"])
        if self._chance(0.35):
            return self._blocks(setting)
        self.lines.append("  Pair p%s;" % setting)
        if self._chance(0.5):
            self.lines += ["  clones p.a as q;", "  embeds p.b as other;"]
            return ["q", "other", "p.a"]
        return ["p.a", "p.c"]

    def _blocks(self, setting):
        self.lines += ["  block box", "    First f;", "    clones f as g;", "  end"]
        units = ["box.f", "box.g"]
        if self._chance(0.5):
            self.lines.append("  clones box as copy;")
            units = ["copy.f", "copy.g", *units]
        if self._chance(0.3):
            self.lines.append("  Pair p%s;" % setting)
            return ["p.a", *units]
        self.lines.append("  Second alone;")
        return ["alone", *units]

    def _test(self):
        unit = self.random.choice(self.units)
        return self.random.choice(["%s.s == D", "%s.s != A", "%s.s == C", "not %s.live"]) % unit
