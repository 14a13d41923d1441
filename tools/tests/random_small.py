"""Random static models of at most six events, with parts of two classes, two observers and rates, for the tests of the
helpers. Several are written as the parts of one text, so that the program is asked less often: what is true of a part is true of
the model by itself."""
import itertools
import random

PARTS = """domain Mode {OK, WORN, DEAD, STUCK}
class Switch
  Boolean ok (init = true);
  parameter Real rate = 1.0e-3;
  event fail (delay = exponential(rate));
  transition fail: ok -> ok := false;
end
class Pump
  Mode mode (init = OK);
  event wear (delay = exponential(2.0e-3)), die (delay = exponential(1.0e-2)), stick (delay = constant(0.125));
  transition
    wear: mode == OK -> mode := WORN;
    die: mode == WORN -> mode := DEAD;
    stick: mode == OK -> mode := STUCK;
end
"""


class Model:
    """A random model: its text, and the parts with their events."""

    def __init__(self, seed):
        self.draw = random.Random(seed)
        self.pumps = ["p%d" % k for k in range(self.draw.choice((0, 1, 1)))]
        self.switches = ["s%d" % k for k in range(self.draw.randint(2, 6 - 3 * len(self.pumps)))]
        self.flows = ["f%d" % k for k in range(self.draw.randint(1, 3))]
        self.members = self.made()

    def atom(self, flows):
        kinds = [*self.switches, *self.pumps, *(flows if self.draw.random() < 0.5 else ())]
        name = self.draw.choice(kinds)
        if name in self.pumps:
            return "%s.mode %s %s" % (name, self.draw.choice(("==", "!=")), self.draw.choice(("OK", "WORN", "DEAD", "STUCK")))
        return self.draw.choice(("", "", "not ")) + (name if name in flows else name + ".ok")

    def test(self, flows, depth):
        if depth == 0 or self.draw.random() < 0.2:
            return self.atom(flows)
        parts = [self.test(flows, depth - 1) for _ in range(self.draw.choice((2, 3)))]
        form = self.draw.choice(("and", "or", "count"))
        if form == "count":
            return "count(%s) >= %d" % (", ".join(parts), self.draw.randint(1, len(parts)))
        return "(%s)" % (" %s " % form).join("(%s)" % part for part in parts)

    def orders(self, unit):
        """Each set of events that can happen in this unit, in one order; what begins an order comes before it."""
        parts = [[[], ["%s.%s.fail" % (unit, name)]] for name in self.switches]
        parts += [[[], [name + ".wear"], [name + ".wear", name + ".die"], [name + ".stick"]]
                  for name in ("%s.%s" % (unit, pump) for pump in self.pumps)]
        return sorted(tuple(itertools.chain(*one)) for one in itertools.product(*parts))

    def made(self):
        lines = [*("  Switch %s;" % name for name in self.switches), *("  Pump %s;" % name for name in self.pumps),
                 "  Boolean %s (reset = false);" % ", ".join(self.flows)]
        lines += ["  observer Boolean o%d = %s;" % (number, self.test(self.flows, 2)) for number in range(2)]
        lines += ["  assertion", *("    %s := %s;" % (name, self.test(self.flows[:at], 2)) for at, name in enumerate(self.flows))]
        return "\n".join(lines)


def text_of(seeds):
    """A text with a part `mSEED` for each seed."""
    classes = ["class Plant%d\n%s\nend" % (seed, Model(seed).members) for seed in seeds]
    return PARTS + "\n".join([*classes, "block All", *("  Plant%d m%d;" % (seed, seed) for seed in seeds), "end"]) + "\n"


def orders_of(seeds):
    """The orders of all the models of a text."""
    return [order for seed in seeds for order in Model(seed).orders("m%d" % seed)]


def changed(text, seed):
    """The text with another expression in one of its observers and assertions, as in a second version."""
    draw = random.Random(seed)
    lines = text.split("\n")
    places = [at for at, line in enumerate(lines) if " and " in line or " or " in line]
    if places:
        at = draw.choice(places)
        word = draw.choice([word for word in (" and ", " or ") if word in lines[at]])
        lines[at] = lines[at].replace(word, " or " if word == " and " else " and ", 1)
    return "\n".join(lines)
