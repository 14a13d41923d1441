"""What the workbench answers on one text of a model. It keeps nothing of what a page does: each call names all steps. Not proved:
values, reasons and lists are the program's `replay`, `explain` and `cuts`."""
import hashlib
import os
import re
import shutil

import flows
import model
import program
import runs
import symbols
import texts
from command import Refused, files_of, options_of, printed
from open.calls import Calls, TooLong
from open.cut_sets import CutSets
from visible import visible

MOST_STEPS = 2000
MOST_ASKED = 200
MOST_SHOWN = 400
FAULT = 5
REASON = re.compile(r"(\S+) = (.*?) (?:by reset|round ([0-9]+) assignment ([0-9]+) at [0-9]+:[0-9]+(?: from (.*))?)")


class Bad(Exception):
    """A call that is answered with this status and line."""

    def __init__(self, status, text):
        super().__init__(text)
        self.status, self.text = status, text


class Answers:
    """A text of the model in a folder of its own, and what the program says of it."""

    def __init__(self, words, folder):
        self.words, self.folder, self.calls = words, folder, Calls()
        self.name = visible(printed(os.path.basename(words.model)))
        with open(words.model, "rb") as file:
            content = file.read()
        self.sum = hashlib.sha256(content).hexdigest()
        self.copy = os.path.join(folder, "model.alt")
        with open(self.copy, "wb") as file:
            file.write(content)
        self.lines = [visible(line.rstrip("\r")) for line in content.decode("utf-8", "replace").split("\n")]
        self.size = self.told("check").strip()
        source = model.Source(self.copy, words.main)
        self.flat = symbols.told_apart(texts.flat(self.told("flat")), source)
        self.system = flows.System(self.flat)
        self.names = self.system.paths + [one.path for one in self.flat.observers]
        self.observer = flows.observer_of(self.system, source, words.observer) or None
        self.dropped = {source.tree.canonical(path) for path in words.drop.split(",")} if words.drop else set()
        self.index = {path: number for number, path in enumerate(self.system.paths)}
        self.first_observer = len(self.system.paths)
        self.ways = {label: number for number, label in enumerate(self.system.labels)}
        self.visible = {label for label, way in zip(self.system.labels, self.flat.ways) if not way.hidden}
        self.reasons = (None, {})
        self.cuts = self.listed()

    def told(self, command):
        """The text of the program on the model; Refused where it is refused."""
        words = [command, *options_of(self.words, "--main"), *files_of(self.copy)]
        status, text, _ = self.calls.run(words)
        if status:
            raise Refused(words, status, text, self.words.model)
        return text

    def listed(self):
        """The list of cut sets, which runs from now on, or None where no observer is named."""
        if self.observer is None:
            return None
        cuts = CutSets(self.calls, self.copy, self.name, options_of(self.words, "--observer", "--value", "--nodes", "--drop", "--main"))
        cuts.start()
        return cuts

    def end(self):
        """Ends what runs, and removes the copy."""
        self.calls.end()
        shutil.rmtree(self.folder, ignore_errors=True)

    # What the page asks once.

    def about(self):
        flat = self.flat
        return {
            "file": self.name, "size": self.size, "sum": self.sum, "proved": program.proved_words(),
            "words": options_of(self.words, "--observer", "--value", "--drop", "--main", "--nodes"),
            "observer": next((number for number, one in enumerate(flat.observers, self.first_observer) if one.path == self.observer), None),
            "value": self.words.value or "true",
            "dropped": [number for number, label in enumerate(self.system.labels) if texts.event_of(label) in self.dropped],
            "variables": [[one.path, int(one.state), one.domain] for one in flat.variables.values()],
            "observers": [[one.path, one.value, self.system.named(one.value)] for one in flat.observers],
            "ways": [[label, int(way.hidden)] for label, way in zip(self.system.labels, flat.ways)],
            "units": self.system.units, "most_steps": MOST_STEPS}

    # What it asks for each move.

    def steps(self, asked):
        """The steps of a call: labels of visible events, so nothing else of a call comes into a script; and a number of them."""
        steps = asked.get("steps")
        if not isinstance(steps, list) or len(steps) > MOST_STEPS or not all(isinstance(one, str) and one in self.visible for one in steps):
            raise Bad(400, "steps are labels of visible events of the model, at most %d" % MOST_STEPS)
        at = asked.get("at", len(steps))
        if not is_number(at, len(steps) + 1):
            raise Bad(400, "at is a number of steps")
        return steps, at

    def script(self, command, lines):
        """The answer of `replay` or `explain` to a script of these lines."""
        words = [command, *options_of(self.words, "--main"), *files_of(self.copy, "/dev/stdin")]
        try:
            return self.calls.run(words, "".join(line + "\n" for line in lines))
        except TooLong:
            raise Bad(504, "the program took too long") from None

    def run(self, asked):
        """The values at the start, what each step changes, and what can be fired after step `at`."""
        steps, at = self.steps(asked)
        lines = ["fire " + step for step in steps]
        status, text, took = self.script("replay", lines[:at] + ["enabled"] + lines[at:])
        if status not in (0, FAULT):
            return {"moments": [], "fault": text.strip(), "at": 0, "took": took}
        found = self.moments(text)
        if found["enabled"] is None and found["moments"]:
            at = len(found["moments"]) - 1
            _, more, again = self.script("replay", lines[:at] + ["enabled"])
            found["enabled"], took = self.moments(more)["enabled"], took + again
        return {**found, "at": at, "took": took, "changed": self.file_changed()}

    def moments(self, text):
        """A trace: all values at the start, and the numbers of what each step changes with the values behind it."""
        trace = runs.read(text)
        moments = [self.numbered(step) for step in trace.steps if step.word != "enabled"]
        enabled = next(([self.ways[label] for label in step.values] for step in trace.steps if step.word == "enabled"), None)
        found = {"moments": [[], *moments[1:]] if moments else [], "enabled": enabled}
        if moments:
            found["start"] = [value for _, value in sorted(moments[0])]
        if trace.fault:
            found["fault"] = "fault: " + trace.fault
        return found

    def numbered(self, step):
        places = {one.path: number for number, one in enumerate(self.flat.observers, self.first_observer)}
        return [[self.index[path], value] for path, value in step.values.items()] + [
            [places[path], value] for path, value in step.observers.items()]

    def why(self, asked):
        """What `explain` says of flows after the steps, each with its assignments and their lines of the text."""
        steps, at = self.steps(asked)
        numbers = asked.get("variables")
        if not isinstance(numbers, list) or len(numbers) > MOST_ASKED or not all(is_number(one, self.first_observer) for one in numbers):
            raise Bad(400, "variables are numbers of variables")
        key = tuple(steps[:at])
        kept, said = self.reasons
        if kept != key:
            status, text, _ = self.script("explain", ["fire " + step for step in key])
            if status:
                return {"fault": text.strip()}
            said = {one[1]: one for one in map(REASON.fullmatch, text.splitlines()) if one}
            self.reasons = key, said
        return {"reasons": [self.reason(said.get(self.system.paths[one]), self.system.paths[one]) for one in numbers]}

    def reason(self, found, path):
        if found is None or found[3] is None:
            given = [self.assignment(one) for one in self.flat.asserts if one.set.target == path]
            return {"given": given, "reset": found is not None}
        given = [self.assignment(one) for one in self.flat.asserts if one.number == int(found[4])]
        return {"given": given, "round": int(found[3]), "from": [self.index[name] for name in (found[5] or "").split(", ") if name]}

    def assignment(self, one):
        """An assignment with its place, and the line of the text there."""
        conditions = "".join(" %s %s" % ("when" if wanted else "unless", text) for text, wanted in one.set.conditions)
        return {"number": one.number, "row": one.line, "source": self.lines[one.line - 1][:MOST_SHOWN],
                "text": "%s := %s%s" % (one.set.target, one.set.value, conditions), "named": self.system.read_by(one.set)}

    def cut_sets(self, query):
        """Some of the cut sets."""
        if self.cuts is None:
            return {"state": "off"}
        size = query.get("size", "")
        return self.cuts.page(int(size) if size else None, query.get("text", ""), natural(query.get("first", "0")), natural(query.get("most", "100")))

    def picture(self, query):
        """The picture of a unit as SVG, how many boxes it has, and how many there are."""
        root, centre = query.get("root", "0"), query.get("centre")
        if natural(root) >= len(self.system.units) or centre is not None and natural(centre) >= self.first_observer:
            raise Bad(400, "root is the number of a unit, centre that of a variable")
        if not shutil.which("dot"):
            raise Bad(501, "there is no dot here")
        text, drawn, every = flows.picture(
            self.system, self.observer or "", self.system.units[natural(root)], self.units(query, "opened"), self.units(query, "closed"),
            None if centre is None else natural(centre), across=query.get("across", "1") == "1")
        try:
            status, content = self.calls.filter(["dot", "-Tsvg"], text.encode("latin-1"))
        except TooLong:
            raise Bad(504, "dot took too long") from None
        if status:
            raise Bad(500, "dot drew nothing")
        return content, "%d of %d" % (drawn, every)

    def units(self, query, name):
        numbers = [natural(one) for one in query.get(name, "").split(",") if one]
        return [self.system.units[number] for number in numbers if number < len(self.system.units)]

    def file_changed(self):
        """Whether the file has another text by now."""
        try:
            with open(self.words.model, "rb") as file:
                return hashlib.sha256(file.read()).hexdigest() != self.sum
        except OSError:
            return True


def is_number(value, end):
    return type(value) is int and 0 <= value < end


def natural(word):
    """A number of the address of a call."""
    if not (word.isdecimal() and word.isascii() and len(word) < 10):
        raise Bad(400, "this is no number")
    return int(word)
