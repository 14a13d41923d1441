"""Runs of events, each as `replay` writes its trace. Not proved: what happens is the program's, what is read here is not."""
import tempfile
from collections import namedtuple

import program
from command import CouldNot, Refused

Step = namedtuple("Step", "word label values observers")
"""A moment of a run: its word, `start`, `fire`, `back`, `show` or `enabled`; its label, or ``; the values of variables and
of observers that it has; for `enabled` the labels that can be fired, as the keys of `values`."""
Trace = namedtuple("Trace", "steps fault")
"""The moments of a run, and the fault in which it ends, or ``."""
Effect = namedtuple("Effect", "labels values observers fault")
"""What some events in this order do from the start: the values of variables and of observers that are other than at the start,
or the fault in which they end."""

FAULT = 5
MOST_BYTES = 1 << 19
"""The program reads scripts of twice as many bytes."""
OBSERVER = "  observer "


def read(text):
    """A trace as it is written."""
    found, fault = [], ""
    for line in text.splitlines():
        if line.startswith("fault: "):
            fault = line[len("fault: "):]
        elif not line.startswith("  "):
            word, _, label = line.partition(" ")
            found.append(Step(word, label, {}, {}))
        elif line.startswith(OBSERVER):
            path, value = line[len(OBSERVER):].split(" = ", 1)
            found[-1].observers[path] = value
        else:
            path, _, value = line[2:].partition(" = ")
            found[-1].values[path] = value
    return Trace([step for step in found if step.word != "end"], fault)


def script_of(lines):
    """A file with these lines, which is gone once it is closed."""
    file = tempfile.NamedTemporaryFile("w", suffix=".script", encoding="latin-1")
    file.write("".join(line + "\n" for line in lines))
    file.flush()
    return file


def trace(source, lines):
    """The trace of a script of these lines; Refused where it is none."""
    with script_of(lines) as script:
        words = source.words("replay", more=[script.name])
        status, text = program.run(words)
    if status not in (0, FAULT):
        raise Refused(words, status, text, source.file)
    return read(text)


def start(source):
    """The first moment of a run, with all values, and the labels that can be fired in it; CouldNot where it is a fault."""
    found = trace(source, ["enabled"])
    if found.fault:
        raise CouldNot("the model has a fault at the start, so nothing happens in it: %s" % found.fault)
    return found.steps[0], list(found.steps[1].values)


def enabled(source, events=()):
    """The labels that can be fired after these events, in the order of the program; CouldNot where they meet a fault."""
    found = trace(source, ["fire " + label for label in events] + ["enabled"])
    if found.fault:
        raise CouldNot("fault: %s" % found.fault)
    return list(found.steps[-1].values)


def bundles(runs):
    """The runs in bundles, of each of which a script has few bytes."""
    found, size = [], MOST_BYTES
    for run in runs:
        size += sum(len(label) + 12 for label in run)
        if size > MOST_BYTES:
            found.append([])
            size = sum(len(label) + 12 for label in run)
        found[-1].append(run)
    return found


def settled(first, steps):
    """The values after these steps that are other than at the start, of variables and of observers."""
    values, observers = {}, {}
    for step in steps:
        values.update(step.values)
        observers.update(step.observers)
    return ({path: value for path, value in values.items() if first.values[path] != value},
            {path: value for path, value in observers.items() if first.observers[path] != value})


def bundle_effects(source, first, runs):
    """The effects of the runs of a bundle: each is fired and taken back; behind a fault the script begins again."""
    done = 0
    while done < len(runs):
        lines = [line for run in runs[done:] for line in ["fire " + label for label in run] + ["back"] * len(run)]
        found = trace(source, lines)
        at = 1
        while done < len(runs) and at + 2 * len(runs[done]) <= len(found.steps):
            yield Effect(tuple(runs[done]), *settled(first, found.steps[at:at + len(runs[done])]), "")
            at += 2 * len(runs[done])
            done += 1
        if done < len(runs):
            # The fault comes in this run, before the first event of which there is no step.
            yield Effect(tuple(runs[done]), {}, {}, found.fault)
            done += 1


def effects(source, first, runs):
    """The effect of each run, a list of labels that can be fired one after the other."""
    for bundle in bundles([run for run in runs if run]):
        yield from bundle_effects(source, first, bundle)


def followers(source, labels):
    """For each of these labels, which meet no fault, the labels that can be fired after it."""
    found = {}
    for bundle in bundles([[label] for label in labels]):
        lines = [line for (label,) in bundle for line in ("fire " + label, "enabled", "back")]
        steps = trace(source, lines).steps
        found.update({label: list(step.values) for (label,), step in zip(bundle, steps[2::3])})
    return found
