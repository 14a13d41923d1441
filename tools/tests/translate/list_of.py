"""What `from_altarica` gives for a model, listed and written back, against all firing orders of the model in the profile.

list_of.py FILE: each line of FILE is `MODEL[,MODEL] OBSERVER[=VALUE] WORDS..`, with models of tests/from_altarica. Written are
the line behind `> ` and the list of the program in the old names, or the refusal; then what differs from the orders.
"""
import json
import os
import sys
import tempfile

sys.dont_write_bytecode = True
sys.setrecursionlimit(20000)
here = os.path.dirname(os.path.realpath(__file__))
sys.path[:0] = [here, os.path.join(here, "..", "..", "lib")]
import brute
import program
import texts
from tool import tool
from translate import elaborate, semantic, source

def orders_of(found, words):
    """The firing orders of the model in the profile, with what the words ask."""
    system = elaborate.elaborate(source.Source(found["text"], found["main"]))[1]
    drop, at_once = frozenset(found["drop"]), frozenset()
    if "settle" in words:
        at_once = frozenset(event.path for event in system.events.values() if event.at_once and event.path not in drop)
    return brute.Orders(system, semantic.Asked(drop, at_once, "--broadcast" in words))


def value_of(word):
    return word == "true" if word in ("true", "false") else int(word) if word.lstrip("-").isdigit() else word


class Asked:
    """One line: its models, its observer with a value, and further words."""

    def __init__(self, line, folder):
        models, observer, *self.words = line.split()
        self.models = ["tests/from_altarica/%s.alt" % name for name in models.split(",")]
        self.observer, _, value = observer.partition("=")
        self.value = value or "true"
        self.map, self.new, self.list = [os.path.join(folder, name) for name in ("map", "new.alt", "list")]

    def write(self, file, text):
        with open(file, "w", encoding="latin-1") as it:
            it.write(text)

    def answer(self):
        """The lines that are written for it."""
        status, text, said = tool(*self.models, "--map", self.map, *self.words)
        if status:
            return ["status %d %s" % (status, said.strip().rpartition("\n")[2])]
        self.write(self.new, text)
        status, text = program.run(["cuts", self.new, "--observer", self.observer, "--value", self.value])
        self.write(self.list, text)
        back, text, said = tool("--back", self.list, self.map, "--observer", self.observer, "--value", self.value)
        lines = text.strip().splitlines() + [line for line in said.splitlines() if back]
        return lines if status else lines + self.wrong(text)

    def wrong(self, text):
        """What differs from the firing orders."""
        with open(self.map, encoding="latin-1") as file:
            orders = orders_of(json.load(file), self.words)
        got = {frozenset(map(texts.event_of, line)) for line in texts.cuts(text)}
        want = orders.sets(self.observer, value_of(self.value))
        found = [] if got == want else ["WRONG: the orders give %s" % sorted(map(sorted, want))]
        return found + (["WRONG: some order meets a conflict"] if orders.conflicts else [])


def main():
    with tempfile.TemporaryDirectory() as folder, open(sys.argv[1], encoding="utf-8") as file:
        for line in file:
            print("\n".join(["> " + line.strip(), *Asked(line, folder).answer()]))


main()
