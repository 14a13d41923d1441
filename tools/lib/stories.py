"""How a cut set happens: its events one by one, what they change, and why the observer has its value then. Not proved: the runs
and the reasons are the program's `replay` and `explain`."""
import re

import runs
import texts
from command import CouldNot, shown

REASON = re.compile(r"(\S+) = (.*?) (?:by reset|round [0-9]+ assignment [0-9]+ at ([0-9]+):[0-9]+(?: from (.*))?)")


def changes(known, step):
    """The lines of what a step changes, with the values before it; `known` takes the new ones."""
    for kind, found in (("", step.values), ("observer ", step.observers)):
        for path, value in found.items():
            yield "    %s%s: %s -> %s" % (kind, path, known[kind, path], value)
            known[kind, path] = value


def steps(trace):
    """The lines on each event, and all values at the end."""
    start = trace.steps[0]
    known = {**{("", path): value for path, value in start.values.items()},
             **{("observer ", path): value for path, value in start.observers.items()}}
    lines = []
    for number, step in enumerate(trace.steps[1:], 1):
        lines += ["%d. %s" % (number, step.label), *(list(changes(known, step)) or ["    nothing else"])]
    return lines, known


def reasons(source, labels):
    """For each flow what `explain` says of it: the line of its assertion, or None, and the variables that it has its value from."""
    with runs.script_of(["fire " + label for label in labels]) as script:
        text = source.ask("explain", [], [script.name])
    found = [one for one in map(REASON.fullmatch, text.splitlines()) if one]
    return {one[1]: (one[3], (one[4] or "").split(", ") if one[4] else []) for one in found}


def names_of(one):
    """What an assignment names in its value and its conditions."""
    return texts.words(one.set.value).union(*(texts.words(expression) for expression, _ in one.set.conditions))


class Reasons:
    """Why the flows have their values at the end of a run."""

    def __init__(self, source, labels, known, changed):
        self.flat, self.known, self.changed = source.flat, known, changed
        self.said = reasons(source, labels)
        self.asserts = {}
        for one in self.flat.asserts:
            self.asserts.setdefault(one.set.target, []).append(one)

    def named(self, path):
        return "%s = %s%s" % (path, self.known["", path], "*" if path in self.changed else "")

    def sources(self, path):
        """The variables from which a flow has its value; of one with its reset all that its assertions name."""
        line, found = self.said.get(path, (None, []))
        if line is not None:
            return found
        names = {name for one in self.asserts.get(path, ()) for name in names_of(one)}
        return [it for it in self.flat.variables if it in names]

    def told(self, path):
        """The line on a flow."""
        line = self.said.get(path, (None, []))[0]
        named = ", ".join(map(self.named, self.sources(path)))
        if line is not None:
            return "  %s: line %s%s" % (self.named(path), line, ", from " + named if named else "")
        lines = sorted({one.line for one in self.asserts.get(path, ())})
        if not lines:
            return "  %s: no assertion sets it, so it has its reset" % self.named(path)
        return "  %s: no value comes from line %s, so it has its reset; there %s" % (
            self.named(path), " or ".join(map(str, lines)), named or "nothing is read")

    def lines(self, observer):
        """The lines on each flow that has changed and that the observer reads, itself or by other flows that have changed."""
        expression = next(one.value for one in self.flat.observers if one.path == observer)
        todo = [path for path in self.flat.variables if path in texts.words(expression)]
        seen, found = set(todo), []
        while todo:
            path = todo.pop(0)
            if path not in self.changed or self.flat.variables[path].state:
                continue
            found.append(self.told(path))
            further = [it for it in self.sources(path) if it not in seen]
            seen.update(further)
            todo += further
        return found


def story(source, labels, observer):
    """The lines of a story; CouldNot where the run ends in a fault."""
    trace = runs.trace(source, ["fire " + label for label in labels])
    if trace.fault:
        raise CouldNot("these events meet a fault: %s" % trace.fault)
    start = trace.steps[0]
    observer = source.tree.canonical(observer)
    if observer not in start.observers:
        raise CouldNot("there is no observer %s" % shown(observer))
    lines, known = steps(trace)
    changed = {path for path, value in start.values.items() if known["", path] != value}
    why = Reasons(source, labels, known, changed).lines(observer)
    return ["{%s}" % ", ".join(labels), "", "At the start %s = %s." % (observer, start.observers[observer]), *lines,
            "", "At the end %s = %s. A star is on what has changed:" % (observer, known["observer ", observer]),
            *(why or ["  it reads no flow that has changed"])]
