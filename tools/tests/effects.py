"""effects.py COUNT: `effects` on so many random models: least numbers of events, counts and rules, from the sets that brute force over `replay` finds."""
import csv
import os
import random
import subprocess
import sys
import tempfile

sys.dont_write_bytecode = True
from brute import minimal, walked
from random_small import orders_of, text_of


def called(*words):
    done = subprocess.run(["tools/effects", *words], stdout=subprocess.PIPE, stderr=subprocess.DEVNULL, check=False)
    return done.returncode, done.stdout.decode()


def events_of(text):
    """The cells of each event, without the empty ones at their places."""
    rows = list(csv.reader(text.splitlines()))
    return {row[0]: row[1:] for row in rows[1:]}


def wanted_events(found, observers):
    """The same by brute force."""
    cells = {}
    for number, observer in enumerate(observers):
        for cut in minimal(found, observer):
            for label in cut:
                row = cells.setdefault(label, [""] * 2 * len(observers))
                row[2 * number] = str(min(len(cut), int(row[2 * number] or len(cut))))
                row[2 * number + 1] = str(1 + int(row[2 * number + 1] or 0))
    return cells


def lines_as_sets(text):
    """The lines of a rule, with their events as a set."""
    return sorted((line.split("{")[0], sorted(line.split("{")[1][:-1].split(", "))) for line in text.splitlines())


def rule_slips(model, found, observers):
    """What differs where each event is in one of three zones, or in two."""
    draw = random.Random(len(found))
    events = sorted({label for order in found for label in order})
    zones = {event: sorted(draw.sample(["a", "b", "c"], draw.choice((1, 1, 2)))) for event in events}
    with tempfile.NamedTemporaryFile("w", suffix=".csv") as file:
        file.write("".join("%s,%s\n" % (event, zone) for event in events for zone in zones[event]))
        file.flush()
        apart = [word for one in observers for word in ("--apart", one, file.name)]
        status, text = called(model, "--no-single", ",".join(observers), *apart)
    wanted = [("single %s: " % one, sorted(cut) or [""]) for one in observers for cut in minimal(found, one) if len(cut) <= 1]
    for one in observers:
        for cut in minimal(found, one):
            shared = sorted(set.intersection(*(set(zones[event]) for event in cut))) if len(cut) == 2 else []
            wanted += [("together %s in %s: " % (one, " and ".join(shared)), sorted(cut))] if shared else []
    return [] if (status, lines_as_sets(text)) == (int(bool(wanted)), sorted(wanted)) else ["the rules"]


os.chdir(os.path.join(os.path.dirname(os.path.realpath(__file__)), "..", ".."))
for first in range(100, 100 + int(sys.argv[1]), 5):
    with tempfile.NamedTemporaryFile("w", suffix=".alt") as file:
        file.write(text_of(range(first, first + 5)))
        file.flush()
        everything = walked(file.name, orders_of(range(first, first + 5)))
        asked = list(everything[()][1])
        slips = [] if events_of(called(file.name, "--csv")[1]) == wanted_events(everything, asked) else ["the table"]
        slips += rule_slips(file.name, everything, asked[:4])
        if slips:
            print("models from %d: %s" % (first, ", ".join(slips)))
print("%s models" % sys.argv[1])
