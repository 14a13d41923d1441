"""against_orders.py random|trees FROM TO [settle | broadcast | once]: random models, translated, listed and written back, against
all firing orders. Lines say what differs; the last has the counts."""
import collections
import os
import random
import re
import sys
import tempfile

sys.dont_write_bytecode = True
sys.setrecursionlimit(20000)
here = os.path.dirname(os.path.realpath(__file__))
sys.path[:0] = [here, os.path.join(here, "..", "..", "lib")]
import brute
import program
import random_models
import random_trees
import texts
from translate import back, semantic
from translate.elaborate import elaborate
from translate.refused import Refused
from translate.source import Source

NODES = "20000"


class Tried:
    """A text with what is asked, its translation, and its firing orders."""

    def __init__(self, text, asked):
        self.asked = asked
        self.written, self.map, self.system, self.notes = semantic.translate(text, asked)
        if asked.at_once:
            semantic.refuse_conflict(text, asked, None, self.cuts)
        self.orders = brute.Orders(self.system, asked)
        self.kept = {event for event in self.system.fired if event not in asked.at_once}

    def back(self, lines):
        return brute.least(frozenset(event for label in line for event in back.old_events(self.map, label) if event in self.kept)
                           for line in lines)

    def listed(self, observer, value=None):
        """The status, the text of the program, and its sets in the old names."""
        status, text = self.cuts(self.written.text, observer, *(["--value", value] if value else []))
        return status, text, self.back(texts.cuts(text)) if status == 0 else None

    @staticmethod
    def cuts(text, observer, *words):
        with tempfile.NamedTemporaryFile("w", suffix=".alt", encoding="latin-1") as file:
            file.write(text)
            file.flush()
            return program.run(["cuts", file.name, "--observer", observer, "--nodes", NODES, *words])

    def wanted(self, observer, value=True):
        return brute.least(one & self.kept for one in self.orders.sets(observer, value))


def kind(tried, observer):
    """How a list compares: `equal`, `nodes`, `conflict in both`, or what differs."""
    status, text, got = tried.listed(observer)
    if status == 6:
        return "nodes"
    if status == 5 and tried.orders.conflicts:
        return "conflict in both"
    want = tried.wanted(observer)
    if status == 0 and got == want and not tried.orders.conflicts:
        return "equal"
    got = text.strip() if got is None else sorted(map(sorted, got))
    return "want %s got %s%s" % (sorted(map(sorted, want)), got, " conflict" if tried.orders.conflicts else "")


def asked_of(model, seed, words):
    events = elaborate(Source(model.text))[1].fired
    drop, at_once = [event for event in model.drop if event in events], []
    if "settle" in words:
        hidden = re.findall(r"u[0-9]\.[a-z0-9]+", " ".join(re.findall(r"hide (.*);", model.text)))
        seen = [event for event in events if event[0] != "c" and event not in drop and event not in hidden]
        chosen = random.Random(seed + 10**6)
        at_once = chosen.sample(seen, min(len(seen), chosen.choice([1, 1, 2])))
    return semantic.Asked(frozenset(drop), frozenset(at_once), "broadcast" in words, "once" in words)


def main():
    make = random_trees.RandomTree if sys.argv[1] == "trees" else random_models.Random
    first, last, words = int(sys.argv[2]), int(sys.argv[3]), sys.argv[4:]
    counts = collections.Counter()
    for seed in range(first, last):
        model = make(seed)
        try:
            tried = Tried(model.text, asked_of(model, seed, words))
        except Refused as refused:
            counts["refused: " + re.sub(r"[a-z_]+[0-9]*\.[a-z.]+|[uck][0-9]\S*|[A-E]\b", "_", refused.reason)[:48]] += 1
            continue
        except brute.TooMany:
            counts["too many states"] += 1
            continue
        for observer in tried.system.observers:
            found = kind(tried, observer)
            counts[found if found[:5] != "want " else "different"] += 1
            if found[:5] == "want ":
                print("%d %s %s drop %s" % (seed, observer, found, sorted(tried.asked.drop)))
        counts["models"] += 1
    print(", ".join("%s %d" % row for row in sorted(counts.items())))


if __name__ == "__main__":
    main()
