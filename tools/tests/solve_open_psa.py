"""solve_open_psa.py XML [GATE]: the minimal sets of basic events at which a gate, top-1, is true, by all subsets.

A plain reading of the fault tree that knows nothing of the program: it evaluates the gates at each subset of the basic
events, smaller ones first, and keeps those at which the top is true and no kept one is within. It is the other route of
tools/tests/to_open_psa.sh. Prints one set a line, the labels sorted, the lines sorted.
"""
import itertools
import sys
import xml.etree.ElementTree as xml

wanted = sys.argv[2] if len(sys.argv) > 2 else "top-1"
root = xml.parse(sys.argv[1]).getroot()
gates = {g.get("name"): g[-1] for g in root.iter("define-gate")}
labels = {e.get("name"): e.findtext("label") for e in root.iter("define-basic-event")}
names = list(labels)
assert len(names) <= 20, "too many events for all subsets"
bits = {name: 1 << number for number, name in enumerate(names)}


def compiled(formula):
    """The formula as an expression of Python over the subset s and the gates' values."""
    word = formula.tag
    parts = [compiled(part) for part in formula]
    if word == "basic-event":
        return "(s & %d != 0)" % bits[formula.get("name")]
    if word == "gate":
        return "g[%r]" % formula.get("name")
    if word == "constant":
        return "True" if formula.get("value") == "true" else "False"
    if word == "not":
        return "(not %s)" % parts[0]
    if word == "atleast":
        return "(sum((%s)) >= %s)" % (", ".join(parts) + ",", formula.get("min"))
    return "(%s)" % (" %s " % word).join(parts)


def in_order():
    """The gates, each behind those that it names."""
    done, order = set(), []

    def visit(name):
        if name not in done:
            done.add(name)
            for used in gates[name].iter("gate"):
                visit(used.get("name"))
            order.append(name)
    visit(wanted)
    return order


sys.setrecursionlimit(100000)
body = "\n".join("    g[%r] = %s" % (name, compiled(gates[name])) for name in in_order())
space = {}
exec("def top(s):\n    g = {}\n%s\n    return g[%r]" % (body, wanted), space)
found = []
for size in range(len(names) + 1):
    for some in itertools.combinations(range(len(names)), size):
        s = sum(1 << n for n in some)
        if not any(k & s == k for k in found) and space["top"](s):
            found.append(s)
sets = [sorted(labels[n] for n in names if s & bits[n]) for s in found]
print("\n".join(sorted("{%s}" % ", ".join(s) for s in sets)))
