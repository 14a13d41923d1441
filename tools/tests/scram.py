"""scram.py MODEL WORDS..: asks SCRAM for the cut sets of the exported cuts and of the exported fault tree of a model, by each
of its three ways, and prints where it finds other sets than the program. ALTARICA names the program."""
import os
import subprocess
import sys
import tempfile
import xml.etree.ElementTree as xml

TOP = os.path.dirname(os.path.dirname(os.path.dirname(os.path.realpath(__file__))))
FORMS, WAYS = ("cuts", "tree"), ("bdd", "zbdd", "mocus")


def output(words):
    return subprocess.run(words, stdout=subprocess.PIPE, check=True).stdout


def cuts_of(model, words):
    """The cut sets of the program."""
    lines = output([os.environ["ALTARICA"], "cuts", model, *words]).decode().splitlines()
    return {frozenset(filter(None, line[1:-1].split(", "))) for line in lines if line.startswith("{")}


def products(report, exported):
    """The cut sets of a report, with the labels of the exported events."""
    labels = {it.get("name"): it.findtext("label") for it in xml.parse(exported).iter("define-basic-event")}
    found = [list(product) for product in xml.parse(report).iter("product")]
    if any(part.tag != "basic-event" for product in found for part in product):
        raise ValueError("a product has something that is no event")
    return {frozenset(labels[part.get("name")] for part in product) for product in found}


def main(model, words):
    wanted = cuts_of(model, words)
    limit = str(max(map(len, wanted), default=0) + 1)
    with tempfile.TemporaryDirectory() as room:
        exported, report = os.path.join(room, "exported.xml"), os.path.join(room, "report.xml")
        for form in FORMS:
            with open(exported, "wb") as file:
                file.write(output([os.path.join(TOP, "tools", "to_open_psa"), form, model, *words]))
            for way in WAYS:
                subprocess.run(["scram", "--" + way, "--limit-order", limit, exported, "-o", report], check=True, stdout=subprocess.DEVNULL)
                found = products(report, exported)
                if found != wanted:
                    print("%s %s %s: %d sets that the program does not list, %d that SCRAM lacks" % (
                        model, form, way, len(found - wanted), len(wanted - found)))


main(sys.argv[1], sys.argv[2:])
