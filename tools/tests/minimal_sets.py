"""minimal_sets.py MODEL WORDS..: the minimal sets of events at which `top` of the model's equations is true, found by
trying every set; with `--fireable` first, only among the sets that the trees of modes allow."""

import itertools
import os
import re
import subprocess
import sys


def answer(command, words):
    return subprocess.run([os.environ.get("ALTARICA", "altarica"), command, *words], stdout=subprocess.PIPE, text=True, check=True).stdout.splitlines()


def operand(word, events, gates):
    negated, word = word.startswith("-"), word.lstrip("-")
    value = {"true": True, "false": False}.get(word)
    if value is None:
        value = word[2:] in events if word.startswith("e.") else gates[word]
    return value != negated


def top(lines, events):
    gates = {}
    for line in lines:
        name, _, body = line.rstrip(";").partition(" := ")
        every = all if " & " in body else any
        gates[name] = every([operand(it, events, gates) for it in re.split(r" [&|] ", body)])
    return gates["top"]


def is_fireable(edges, events):
    """Each event's mode is entered first, and no two events leave one mode."""
    left = set()
    for tree, mode, event, entry in edges:
        if event in events:
            if (tree, mode) in left or entry not in (None, *events):
                return False
            left.add((tree, mode))
    return True


is_restricted = sys.argv[1] == "--fireable"
words = sys.argv[2:] if is_restricted else sys.argv[1:]
lines = answer("equations", words)
edges, tree, entries = [], "", {}
for line in answer("fragment", [it for it in words if not it.startswith("--observer")][:1]):
    parts = line.split()
    if parts[0] == "tree":
        tree = parts[1]
    elif line.startswith("  "):
        edges.append((tree, parts[0], parts[1], entries.get((tree, parts[0]))))
        entries[tree, parts[2]] = parts[1]
names = [it[2] for it in edges]
found = []
for size in range(len(names) + 1):
    for events in itertools.combinations(names, size):
        if not any(set(it) <= set(events) for it in found) and top(lines, events) and (not is_restricted or is_fireable(edges, events)):
            found.append(events)
for it in found:
    print("{" + ", ".join(it) + "}")
print(f"count {len(found)}")
