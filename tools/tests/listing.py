"""listing.py COUNT: `compare_models`, `quantify` and `exchange` on so many random models, from the sets that brute force over
`replay` finds."""
import csv
import itertools
import math
import os
import subprocess
import sys
import tempfile

sys.dont_write_bytecode = True
from brute import minimal, walked
from random_small import changed, orders_of, text_of

TIME = 50.0
EACH = 5
CHANCE = {"fail": -math.expm1(-1e-3 * TIME), "wear": -math.expm1(-2e-3 * TIME), "die": -math.expm1(-1e-2 * TIME), "stick": 0.125}


def called(*words):
    done = subprocess.run(["tools/" + words[0], *words[1:]], stdout=subprocess.PIPE, stderr=subprocess.DEVNULL, check=False)
    return done.returncode, done.stdout.decode()


def write(folder, name, text):
    path = os.path.join(folder, name)
    with open(path, "w", encoding="utf-8") as file:
        file.write(text)
    return path


def listed(cuts):
    return "".join("{%s}\n" % ", ".join(sorted(cut)) for cut in cuts) + "count %d\n" % len(cuts)


def compare_slips(old, new, before, after):
    """What differs where two versions are compared."""
    wanted = []
    for observer in before[()][1]:
        first, second = set(minimal(before, observer)), set(minimal(after, observer))
        wanted += [(observer, "-", sorted(cut)) for cut in first - second] + [(observer, "+", sorted(cut)) for cut in second - first]
    status, text = called("compare_models", old, new, "--csv")
    got = [(row[0], row[1], sorted(row[3][1:-1].split(", "))) for row in list(csv.reader(text.splitlines()))[1:]]
    return [] if (status, sorted(got)) == (int(bool(wanted)), sorted((one, mark, cut or [""]) for one, mark, cut in wanted)) else [
        "compare_models"]


def total(cuts, chance):
    return math.fsum(math.prod(chance[label] for label in cut) for cut in cuts)


def wanted_importance(cuts):
    """Probability, number of cut sets, Fussell-Vesely and Birnbaum of each event, by changing its number."""
    chance = {label: CHANCE[label.split(".")[-1]] for cut in cuts for label in cut}
    whole, rows = total(cuts, chance), {}
    for label in chance:
        one, zero = (total(cuts, {**chance, label: value}) for value in (1.0, 0.0))
        rows[label] = (chance[label], sum(label in cut for cut in cuts), (whole - zero) / whole, one - zero)
    return rows


def quantify_slips(model, folder, cuts):
    """What differs in the numbers of a list."""
    _, text = called("quantify", write(folder, "list", listed(cuts)), "--model", model, "--time", str(TIME), "--csv")
    got = {row[0]: tuple(map(float, row[1:])) for row in list(csv.reader(text.splitlines()))[1:]}
    wanted = wanted_importance(cuts)
    same = got.keys() == wanted.keys() and all(math.isclose(a, b, rel_tol=1e-9, abs_tol=1e-12)
                                               for label in got for a, b in zip(got[label], wanted[label]))
    return [] if same else ["quantify"]


def can_be_exchanged(cuts, first, second):
    """Whether the cut sets stay as they are when the events of the two units change places."""
    names = {first: second, second: first}
    swapped = {frozenset(".".join([names.get(unit, unit), event]) for unit, _, event in (label.rpartition(".") for label in cut))
               for cut in cuts}
    return swapped == set(cuts)


def exchange_slips(model, folder, cuts):
    """What differs in the groups of like units."""
    status, text = called("exchange", model, write(folder, "list", listed(cuts)))
    groups = [[group.split(", ") for group in line.split(": ", 1)[1].split("; ")] for line in text.splitlines() if not line.startswith(" ")]
    for of_class in groups:
        place = {path: number for number, group in enumerate(of_class) for path in group}
        if any((place[a] == place[b]) != can_be_exchanged(cuts, a, b) for a, b in itertools.combinations(place, 2)):
            return ["exchange: the groups"]
    return [] if status == int(any(len(one) > 1 for one in groups)) else ["exchange: the status"]


def tried(first, folder):
    seeds = range(first, first + EACH)
    text = text_of(seeds)
    old, new = write(folder, "old.alt", text), write(folder, "new.alt", changed(text, first))
    before, after = walked(old, orders_of(seeds)), walked(new, orders_of(seeds))
    slips = compare_slips(old, new, before, after)
    for observer in list(before[()][1])[::2]:
        cuts = minimal(before, observer)
        if cuts and cuts != [frozenset()]:
            slips += quantify_slips(old, folder, cuts) + exchange_slips(old, folder, cuts)
    return slips


os.chdir(os.path.join(os.path.dirname(os.path.realpath(__file__)), "..", ".."))
with tempfile.TemporaryDirectory() as work:
    for number in range(200, 200 + int(sys.argv[1]), EACH):
        found = tried(number, work)
        if found:
            print("models from %d: %s" % (number, ", ".join(found)))
print("%s models" % sys.argv[1])
