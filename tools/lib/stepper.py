"""A run that is made step by step: each answer is the program's, which runs the events so far again. Not proved."""
import re

import runs
from command import CouldNot, Refused, put, shown

BLANKS = " \t\r\n"
REPLIES = {"needs a way": "this event has several ways: write one with its number, as in the list",
           "names no event": "this names no event"}


class Run:
    """The events that were fired, in their order."""

    def __init__(self, source, labels=()):
        self.source, self.labels = source, list(labels)
        self.enabled = runs.enabled(source, self.labels)

    @property
    def lines(self):
        return ["fire " + label for label in self.labels]

    def tried(self, label):
        """The step of a further event; CouldNot where it cannot be fired or meets a fault."""
        try:
            trace = runs.trace(self.source, [*self.lines, "fire " + label, "enabled"])
        except Refused as refused:
            why = next((said for words, said in REPLIES.items() if words in refused.text), refused.line)
            raise CouldNot("%s: %s" % (label, why)) from refused
        if trace.fault:
            raise CouldNot("fault: %s" % trace.fault)
        return trace

    def fire(self, label):
        """Fires an event and returns its step."""
        trace = self.tried(label)
        step = trace.steps[-2]
        self.labels.append(step.label)
        self.enabled = list(trace.steps[-1].values)
        return step

    def back(self):
        """Takes the last event back and returns its step."""
        if not self.labels:
            raise CouldNot("there is no event to take back")
        trace = runs.trace(self.source, [*self.lines, "back", "enabled"])
        self.labels.pop()
        self.enabled = list(trace.steps[-1].values)
        return trace.steps[-2]

    def restart(self):
        """Takes all events back."""
        self.labels = []
        self.enabled = runs.enabled(self.source)

    def show(self):
        """The moment with all values."""
        return runs.trace(self.source, [*self.lines, "show"]).steps[-1]

    def why(self, observer=None):
        """What `explain` says of the flows, or of those of an observer."""
        options = [] if observer is None else ["--observer=" + observer]
        with runs.script_of(self.lines) as script:
            try:
                return self.source.ask("explain", options, [script.name])
            except Refused as refused:
                raise CouldNot(refused.line) from refused

    def save(self, name):
        """Writes the events as a script."""
        put(name, ("// made by tools/step for %s\n%s" % (shown(self.source.file), "".join(line + "\n" for line in self.lines))).encode("latin-1"))

    def label_of(self, word):
        """The label that a word means: a number of the list, or a label as it is written."""
        if not re.fullmatch("[0-9]+", word):
            return word
        if not 1 <= int(word) <= len(self.enabled):
            raise CouldNot("the list has no number %s" % word)
        return self.enabled[int(word) - 1]


def labels_of(lines):
    """The events of a script that only fires, as `save` writes it."""
    found = []
    for number, line in enumerate(lines, 1):
        text = line.split("//")[0].strip(BLANKS)
        if text and not text.startswith("fire "):
            raise CouldNot("line %d of the script is no line `fire LABEL`" % number)
        if text:
            found.append(text[len("fire "):].strip(BLANKS))
    return found
