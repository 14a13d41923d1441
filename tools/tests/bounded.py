"""bounded.py PART..: listings of at most K events, K from 1 to 4, and checks of lists of them. The parts are models, whose small
cut sets have to be those of the listing of all, and numbers N: N random models, some with conflicts, of which everything that
can happen is computed here from the text, without the program."""
import itertools
import os
import random
import re
import subprocess
import sys
import tempfile

sys.dont_write_bytecode = True
from random_small import PARTS, Model

PROGRAM = os.environ["ALTARICA"]
DONE, OUTSIDE, FAULT, SCRIPT = 0, 4, 5, 11
MOST = 4


def asked(*words):
    done = subprocess.run([PROGRAM, *words], stdout=subprocess.PIPE, stderr=subprocess.DEVNULL, check=False)
    return done.returncode, done.stdout.decode()


def text_up_to(lines, order):
    """The listing of these lines."""
    return "".join(line + "\n" for line in lines) + "count %d up to order %d\n" % (len(lines), order)


def size_of(line):
    inner = line[line.index("{") + 1:line.index("}")]
    return len(inner.split(", ")) if inner else 0


# By the listing of all cut sets.

def same_as_filtered(words):
    """What differs from the listing of all, where that has an answer."""
    status, whole = asked("cuts", *words)
    for order in range(1, MOST + 1):
        got = asked("cuts", *words, "--max-order", str(order))
        if status == DONE:
            wanted = DONE, text_up_to([line for line in whole.splitlines() if line[0] == "{" and size_of(line) <= order], order)
        elif status in (OUTSIDE, SCRIPT) or size_of(whole) <= order:
            wanted = status, whole
        else:
            continue
        if got != wanted:
            yield "%s --max-order %d: %r and not %r" % (" ".join(words), order, got, wanted)


def observers_of(model):
    return re.findall(r"^observer (\S+) =", asked("flat", model)[1], re.M)


def drops_of(model):
    """The events to leave out of the example plants that have repairs, as their pages do."""
    return {"bus": ["--drop=left_feeder.close,right_feeder.close,tie.close"], "pumps": ["--drop=main_pump.start,standby_pump.stop"],
            "ring": ["--drop=north.mend,east.mend,south.mend,west.mend"]}.get(os.path.basename(model)[:-4], [])


# By what can happen.

class Unit:
    """A part with its state."""


class Plant:
    """A random model as one unit `m`, with an observer `lost` that needs several failures, and in some seeds a flow that may
    get two values."""

    def __init__(self, seed):
        self.made, self.draw = Model(seed), random.Random(-seed)
        lines = self.made.members.split("\n")
        lines.insert(0, "  observer Boolean lost = %s;" % " or ".join(self.failures(2) for _ in range(self.draw.randint(1, 3))))
        self.observers = dict(re.match(r"  observer Boolean (\w+) = (.*);", line).groups() for line in lines if " observer " in line)
        self.flows = [re.match(r"    (\w+) := (.*);", line).groups() for line in lines if line.startswith("    f")]
        self.conditions = None
        if seed % 2:
            # Where both conditions hold the flow has two values.
            self.conditions = [self.failures(self.draw.randint(1, 2)) for _ in range(2)]
            lines.insert(0, "  Boolean twice (reset = false);")
            lines += ["    if %s then twice := %s;" % one for one in zip(self.conditions, ("true", "false"))]
        self.text = PARTS + "class Plant\n%s\nend\nblock All Plant m; end\n" % "\n".join(lines)

    def failures(self, count):
        """A test that asks for so many failures, one of them in a group of which some have to fail."""
        tests = ["not %s.ok" % name for name in self.made.switches]
        tests += ["%s.mode == %s" % (name, mode) for name in self.made.pumps for mode in ("WORN", "DEAD", "DEAD", "STUCK")]
        group = self.draw.sample(tests, self.draw.randint(1, len(tests)))
        least_failed = self.draw.randint(1, len(group))
        return "(%s)" % " and ".join("(%s)" % one for one in [
            "count(%s) >= %d" % (", ".join(group), least_failed), *self.draw.sample(tests, count - 1)])

    def at(self, events):
        """Whether the flows have a fault behind these events, and the values of the observers."""
        known = {"count": lambda *tests: sum(tests), **{mode: mode for mode in ("OK", "WORN", "DEAD", "STUCK")}}
        for name in self.made.switches:
            known[name] = Unit()
            known[name].ok = "m.%s.fail" % name not in events
        for name in self.made.pumps:
            known[name] = Unit()
            known[name].mode = next((mode for event, mode in (("die", "DEAD"), ("wear", "WORN"), ("stick", "STUCK"))
                                     if "m.%s.%s" % (name, event) in events), "OK")
        for name, test in self.flows:
            known[name] = bool(eval(test, known))
        fault = self.conditions is not None and all(eval(test, known) for test in self.conditions)
        known["twice"] = self.conditions is not None and bool(eval(self.conditions[0], known))
        return fault, {name: bool(eval(test, known)) for name, test in self.observers.items()}

    def firing(self, events):
        """These events in firing order: switches, then pumps, the events of a pump in the order of its class."""
        names = ["m.%s.fail" % name for name in self.made.switches]
        names += ["m.%s.%s" % (name, event) for name in self.made.pumps for event in ("wear", "die", "stick")]
        return [name for name in names if name in events]


def least(sets):
    found = []
    for one in sorted(sets, key=len):
        if not any(other <= one for other in found):
            found.append(one)
    return found


def in_order(plant, sets):
    """The lines of these sets in the order of a listing: the set with the first event that is in one of two alone comes first."""
    events = plant.firing({event for one in sets for event in one})
    ordered = sorted(sets, key=lambda one: [event not in one for event in events])
    return ["{%s}" % ", ".join(plant.firing(one)) for one in ordered]


class Happened:
    """What can happen in a plant: the least sets with a fault, and those at which an observer has another value than at the
    start, of at most so many events."""

    def __init__(self, plant, observer):
        self.plant = plant
        found = {frozenset(order): plant.at(order) for order in plant.made.orders("m")}
        self.value = not found[frozenset()][1][observer]
        self.ends = {one: (fault, values[observer] == self.value) for one, (fault, values) in found.items()}

    def conflicts(self, order):
        return in_order(self.plant, least(one for one, (fault, _) in self.ends.items() if fault and len(one) <= order))

    def cuts(self, order):
        return in_order(self.plant, least(one for one, (fault, has_value) in self.ends.items()
                                          if has_value and not fault and len(one) <= order))

    def answer(self, order):
        conflicts = self.conflicts(order)
        if conflicts:
            return FAULT, "fault: %s: flow m.twice has two values\n" % conflicts[0]
        return DONE, text_up_to(self.cuts(order), order)

    def checked(self, lines, order):
        """What `checkcuts` says of lines, each a list of labels."""
        judged, small = [], [None if len(one) > order else frozenset(one) for one in lines]
        for at, one in enumerate(lines):
            if small[at] is None:
                judged.append("above")
            elif one != self.plant.firing(one) or self.ends.get(small[at], (False, False)) != (False, True):
                judged.append("fails")
            else:
                held = [k for k, other in enumerate(small) if k != at and other is not None and
                        (other < small[at] or other == small[at] and k < at)]
                judged.append("holds line %d" % (held[0] + 1) if held else "good")
        missing = [line for line in self.cuts(order) if frozenset(line[1:-1].split(", ") if size_of(line) else ()) not in small]
        is_right = not missing and all(one in ("good", "above") for one in judged)
        said = ["line %d %s" % (number, one) for number, one in enumerate(judged, 1)] + ["missing " + line for line in missing]
        return "\n".join([*said, "%s up to order %d" % ("yes" if is_right else "no", order)]) + "\n"


def lists_for(happened, order, draw):
    """Lists to check: the cut sets up to the order, all cut sets, one that lacks a line, and some with wrong lines."""
    def labels(line):
        return line[1:-1].split(", ") if size_of(line) else []

    small, whole = ([labels(line) for line in happened.cuts(most)] for most in (order, 99))
    others = [happened.plant.firing(one) for one in happened.ends]
    yield small
    yield whole
    if small:
        lost = draw.choice(small)
        yield [one for one in whole if one != lost]
    yield draw.sample(whole + [draw.choice(others) for _ in range(3)] + draw.sample(small, len(small) // 2), len(whole) + 3 + len(small) // 2)


def tried(seed, folder):
    """What differs in a random model."""
    plant = Plant(seed)
    observer = plant.draw.choice(["lost", *plant.observers])
    happened, model = Happened(plant, observer), os.path.join(folder, "model.alt")
    with open(model, "w", encoding="utf-8") as file:
        file.write(plant.text)
    words = [model, "--observer", "m." + observer, "--value", "true" if happened.value else "false"]
    for order in range(1, MOST + 1):
        wanted, got = happened.answer(order), asked("cuts", *words, "--max-order=%d" % order)
        if got != wanted:
            yield "seed %d, order %d: %r and not %r" % (seed, order, got, wanted)
    order = plant.draw.randint(1, 3)
    if happened.conflicts(order):
        return
    for number, lines in enumerate(lists_for(happened, order, plant.draw)):
        with open(os.path.join(folder, "list"), "w", encoding="utf-8") as file:
            file.write("".join("{%s}\n" % ", ".join(labels) for labels in lines) or "count 0\n")
        got = asked("checkcuts", model, os.path.join(folder, "list"), *words[1:], "--max-order", str(order))
        if got != (DONE, happened.checked(lines, order)):
            yield "seed %d, order %d, list %d: %r and not %r" % (seed, order, number, got, happened.checked(lines, order))


def main(parts):
    count = 0
    with tempfile.TemporaryDirectory() as folder:
        for part in parts:
            if part.isdecimal():
                found = itertools.chain.from_iterable(tried(seed, folder) for seed in range(1, int(part) + 1))
                count += int(part)
            else:
                found = itertools.chain.from_iterable(
                    same_as_filtered([part, "--observer=" + one, *drops_of(part)]) for one in observers_of(part))
                count += 1
            for slip in found:
                print(slip[:300])
    print("%d models" % count)


main(sys.argv[1:])
