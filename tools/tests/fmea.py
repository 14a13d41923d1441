"""`fmea` on random models: the values after each event and each pair, as `replay` shows them whole."""
import csv
import os
import subprocess
import sys
import tempfile

sys.dont_write_bytecode = True
from brute import reached
from random_small import text_of


def table(*words):
    done = subprocess.run(["tools/fmea", *words, "--csv"], stdout=subprocess.PIPE, stderr=subprocess.DEVNULL, check=True)
    return list(csv.reader(done.stdout.decode().splitlines()))


def row(order, found):
    """What a row should have, from all values at the start and after the order."""
    flows = [path for path in found[()][0] if ".f" in path]
    changed = ["%s = %s" % (path, found[order][0][path]) for path in flows if found[order][0][path] != found[()][0][path]]
    return [", ".join(order), *found[order][1].values(), "; ".join(changed)]


def is_news(order, found):
    """Whether a pair changes an observer that none of its events changes alone."""
    start = found[()][1]
    alone = [found[(label,)][1] for label in order if (label,) in found]
    return any(found[order][1][path] != start[path] and all(one[path] == start[path] for one in alone) for path in start)


def slips(model, size):
    """What differs in the table of single events, or of pairs."""
    found = reached(model, size)
    wanted = [row(order, found) for order in found if len(order) == size and (size == 1 or is_news(order, found))]
    got = table(model, *["--pairs"][:size - 1])[1:]
    return [(one, two) for one, two in zip(got, wanted) if one != two][:2] + [len(got)] * (len(got) != len(wanted))


def tried(size, seeds, count):
    """Tries texts of this many models."""
    for first in range(seeds.start, seeds.stop, count):
        with tempfile.NamedTemporaryFile("w", suffix=".alt") as file:
            file.write(text_of(range(first, first + count)))
            file.flush()
            for slip in slips(file.name, size):
                print("models from %d, %d events: %s" % (first, size, slip))
    print("%d models, %d events" % (len(seeds), size))


os.chdir(os.path.join(os.path.dirname(os.path.realpath(__file__)), "..", ".."))
tried(1, range(50), 10)
tried(2, range(50, 62), 3)
