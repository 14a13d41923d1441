"""Of each listing of cuts that the cases of altarica_cases ask for: its orders are fired as scripts, each of which ends
with the wanted value, and the listing is given back to be checked, as it is, without its first line, and with its first
two lines exchanged."""

import os
import sys
import tempfile

TOP = os.path.dirname(os.path.dirname(os.path.dirname(os.path.realpath(__file__))))
sys.path.insert(0, os.path.join(TOP, "tools", "lib"))

import cases  # noqa: E402
from asked import ProgramWords  # noqa: E402
from program import run  # noqa: E402


def some(asked, *names):
    """These options as words for the program, where they were given."""
    return ["%s=%s" % (name, asked.options[name]) for name in names if name in asked.options]


def last_value(trace, observer):
    """The value that a trace gives the observer last."""
    value = None
    for line in trace.splitlines():
        path, _, shown = line.removeprefix("  observer ").partition(" = ")
        if line.startswith("  observer ") and path == observer:
            value = shown
    return value


def write(folder, name, text):
    path = os.path.join(folder, name)
    with open(path, "w", encoding="utf-8") as it:
        it.write(text)
    return path


def slips_of_orders(folder, model, asked, cuts):
    """The orders that do not end with the wanted value."""
    for cut in cuts:
        labels = [label for label in cut[1:-1].split(", ") if label]
        script = write(folder, "script", "".join("fire %s\n" % label for label in labels))
        status, trace = run(["replay", model, script, *some(asked, "--main")])
        if status or last_value(trace, asked.options["--observer"]) != asked.options.get("--value", "true"):
            yield "order " + cut


def slips_of_checks(folder, model, asked, cuts, rest):
    """What is said wrongly of the listing where it is given back."""
    words = ["checkcuts", model, *some(asked, "--main", "--observer", "--value", "--nodes", "--drop")]

    def said(lines):
        text = run([*words, write(folder, "list", "".join(line + "\n" for line in [*lines, *rest]))])[1].splitlines()
        return text[-1], any(line.startswith("missing ") for line in text)

    if said(cuts)[0] != "yes":
        yield "the listing itself"
    if cuts and said(cuts[1:]) != ("no", True):
        yield "the listing without a line"
    if len(cuts) > 1 and said([cuts[1], cuts[0], *cuts[2:]])[0] != "yes":
        yield "the listing with two lines exchanged"


def test(folder, name, words):
    """Prints a line for a listing; nothing where the job is refused. Returns whether it was listed."""
    status, listing = run(words)
    if status:
        return False
    asked = ProgramWords(words[1:])
    lines = listing.splitlines()
    cuts = [line for line in lines if line.startswith("{")]
    rest = [line for line in lines if not line.startswith("{")]
    slips = [*slips_of_orders(folder, asked.others[0], asked, cuts), *slips_of_checks(folder, asked.others[0], asked, cuts, rest)]
    what = "the %d orders of %s, and its listing given back" % (len(cuts), name)
    print("failed: %s (%s)" % (what, "; ".join(slips)) if slips else "passed: " + what)
    return True


listed = 0
with tempfile.TemporaryDirectory() as folder:
    for job in cases.all_cases():
        if job.words[:1] == [b"cuts"]:
            os.chdir(job.folder)
            listed += test(folder, job.name, [word.decode() for word in job.words])
print("%s: %d listings among the cases" % ("passed" if listed > 30 else "failed", listed))
