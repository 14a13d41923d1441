"""elaborated.py MODEL..: the system of each text against what the program writes for `flat`. Lines say what differs."""
import os
import sys

sys.dont_write_bytecode = True
sys.setrecursionlimit(20000)
here = os.path.dirname(os.path.realpath(__file__))
sys.path[:0] = [here, os.path.join(here, "..", "..", "lib")]
import flat_system
import program
import tokens
from translate import elaborate, expressions, source
from translate.refused import Refused


def domain_text(domain):
    if domain.name == "Boolean":
        return "Boolean"
    if isinstance(domain.values[0], str):
        return "{%s}" % ", ".join(domain.values)
    return "[%d, %d]" % (domain.values[0], domain.values[-1])


def written(system):
    """The system in the form of `flat_system.read`."""
    found = []
    for one in system.variables.values():
        kind = "state" if one.is_state else "flow"
        found.append("%s %s %s = %s" % (kind, one.path, domain_text(one.domain), expressions.word(one.value)))

    def set_of(one):
        return one.target, flat_system.normal(one.value), [(flat_system.normal(c), w) for c, w in one.conditions]
    for way in system.ways:
        label, word = "%s#%d" % (way.event, way.number), "hidden" if way.hidden else "way"
        if way.parts is not None:
            found.append((word, label, " & ".join("%s%s#%d" % part for part in way.parts)))
        else:
            found.append((word, label, flat_system.normal(way.guard), [set_of(one) for one in way.sets]))
    for one in system.assignments:
        found.append(("assert", *set_of(one)))
    for path, tree in system.observers.items():
        found.append(("observer", path, flat_system.normal(tree)))
    return found


def main():
    same = 0
    for name in sys.argv[1:]:
        status, text = program.run(["flat", name])
        if status:
            continue
        want = [line[:1] + line[2:] if line[0] == "assert" else line for line in flat_system.read(text)]
        try:
            got = written(elaborate.elaborate(source.Source(tokens.read(name)))[1])
        except Refused as refused:
            print("%s: refused: %s" % (name, refused.reason))
            continue
        if got == want:
            same += 1
        else:
            print("%s: %s" % (name, next((a, b) for a, b in zip([*want, None], [*got, None]) if a != b)))
    print("%d models" % same)


main()
