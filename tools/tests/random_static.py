"""random_static.py SEED: a random static model of at most 16 events, with trees of modes that branch, for tests."""
import random
import sys

draw = random.Random(int(sys.argv[1]))
left = draw.randint(9, 16)
domains, units, names = [], [], []
while left > 0 and len(units) < 8:
    count = min(left, draw.choice((1, 1, 2, 2, 3, 4)))
    left -= count
    number = len(units)
    modes = ["M%d_%d" % (number, k) for k in range(count + 1)]
    domains.append("domain D%d {%s}" % (number, ", ".join(modes)))
    moves = [(draw.randrange(k + 1), k + 1) for k in range(count)]
    events = ["e%d" % k for k in range(count)]
    order = draw.sample(events, count)
    unit = ["class C%d" % number, "  D%d m (init = %s);" % (number, modes[0]), "  event %s;" % ", ".join(order),
            "  transition"]
    unit += ["    e%d: m == %s -> m := %s;" % (k, modes[a], modes[b]) for k, (a, b) in enumerate(moves)]
    units.append("\n".join(unit + ["end"]))
    names.append(modes)


def atom():
    unit = draw.randrange(len(units))
    if flows and draw.random() < 0.2:
        return "%s%s" % (draw.choice(("", "", "not ")), draw.choice(flows))
    return "u%d.m %s %s" % (unit, draw.choice(("==", "==", "==", "!=")), draw.choice(names[unit][1:]))


def test(words):
    """Any, all or some of a few tests, the outermost word first."""
    if not words:
        return atom()
    parts = [test(words[1:]) for _ in range(draw.choice((2, 3)) + 2 * (words[0] == "or"))]
    if words[0] == "count":
        return "count(%s) >= %d" % (", ".join(parts), draw.randint(1, len(parts)))
    return "(%s)" % (" %s " % words[0]).join("(%s)" % p for p in parts)


flows, asserts = [], []
for number in range(draw.randint(2, 4)):
    form = draw.choice((["or"], ["and", "or"], ["count"], ["or", "and"]))
    asserts.append("    f%d := %s;" % (number, test(form)))
    flows.append("f%d" % number)
lines = domains + units + ["block Plant"] + ["  C%d u%d;" % (k, k) for k in range(len(units))]
top = test(draw.choice((["or", "and"], ["or", "and", "or"], ["or", "count"])))
lines += ["  Boolean %s (reset = false);" % ", ".join(flows), "  observer Boolean lost = %s;" % top, "  assertion"]
print("\n".join(lines + asserts + ["end"]))
