"""All that can happen in a small model, from `replay` alone: each set of events that can happen, with all values after it."""
import math
import os
import subprocess
import tempfile

PROGRAM = os.environ["ALTARICA"]


def replayed(model, lines):
    """The text of a replay of these lines, which ends without a fault."""
    with tempfile.NamedTemporaryFile("w", suffix=".script") as script:
        script.write("".join(line + "\n" for line in lines))
        script.flush()
        return subprocess.run([PROGRAM, "replay", model, script.name], stdout=subprocess.PIPE, check=True).stdout.decode()


def shows(text):
    """After each `show`: the values of variables, those of observers, and what can be fired."""
    found, values, observers, labels = [], None, None, None
    for line in text.splitlines():
        if line == "show":
            values, observers, labels = {}, {}, []
            found.append((values, observers, labels))
            word = "show"
        elif not line.startswith("  "):
            word = line
        elif word == "enabled":
            labels.append(line[2:])
        elif word == "show":
            path, value = line[2:].removeprefix("observer ").split(" = ")
            (observers if line.startswith("  observer ") else values)[path] = value
    return found


def unit_of(label):
    """The part of the main block in which an event is."""
    return label.split(".")[0]


def steps(before, order):
    """The lines that lead from one order of events to the next."""
    same = len(os.path.commonprefix([before, order]))
    return ["back"] * (len(before) - same) + ["fire " + label for label in order[same:]]


def walked(model, orders):
    """What `shows` has after each of these orders."""
    lines, before = [], ()
    for order in orders:
        lines += [*steps(before, order), "show", "enabled"]
        before = order
    return dict(zip(orders, shows(replayed(model, lines))))


def reached(model, most):
    """The same for each order of events up to `most` of which no other order of the same events came first."""
    level, found = [()], {}
    while level:
        found.update(walked(model, level))
        further = {}
        for order in level:
            for label in found[order][2] if len(order) < most else ():
                further.setdefault(frozenset((*order, label)), (*order, label))
        level = list(further.values())
    return found


def minimal(found, observer, value="true"):
    """The minimal sets of events of the observer's part after which it has the value."""
    having = [frozenset(order) for order, (_, observers, _) in found.items()
              if observers[observer] == value and (not order or unit_of(order[0]) == unit_of(observer))]
    kept = []
    for one in sorted(having, key=len):
        if not any(other <= one for other in kept):
            kept.append(one)
    return kept


def chances(found, observer, chance):
    """The probability that the observer is true, where each event of its part happens with its chance, from all sets of events."""
    events = [label for label in chance if unit_of(label) == unit_of(observer)]
    total = 0.0
    for order, (_, observers, _) in found.items():
        if observers[observer] == "true" and (not order or unit_of(order[0]) == unit_of(observer)):
            total += math.prod(chance[event] if event in order else 1 - chance[event] for event in events)
    return total
