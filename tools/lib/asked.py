"""What was asked of the program and refused: its words, the model, its flat system and its text. Not proved."""
import difflib
import os
from collections import namedtuple

import model
from command import files_of

Note = namedtuple("Note", "file line column text cause")
"""What is shown: a place (line None: the file alone), the first line's text, and the cause or None."""
VALUED = ("--main", "--observer", "--value", "--nodes", "--drop", "--max-order")
MOST_NAMED = 12
NEAR = 0.75


def near(name, names):
    close = difflib.get_close_matches(name, sorted(set(names)), 1, NEAR)
    return "; the nearest is `%s`" % close[0] if close else ""


def quoted(names):
    shown = ["`%s`" % n for n in names]
    return shown[0] if len(shown) == 1 else ", ".join(shown[:-1]) + " and " + shown[-1]


def raw(word):
    """A word of the command line as the bytes that it is."""
    return os.fsencode(word).decode("latin-1")


class ProgramWords:
    """The words of a command as the program reads them: its options, and the others in order; ValueError of a word that it
    does not take."""

    def __init__(self, words):
        self.options, self.others, rest = {}, [], list(words)
        while rest:
            word = rest.pop(0)
            name, joined, value = word.partition("=")
            if word == "--":
                self.others += rest
                break
            if name in VALUED and joined:
                self.options[name] = value
            elif name in VALUED and rest:
                self.options[name] = rest.pop(0)
            elif word.startswith("-") and word != "-":
                raise ValueError(word)
            else:
                self.others.append(word)


class Asked:
    """The words of a refused command, with the model, its flat system and its text as far as they can be had. `words` has
    them as bytes, `model` and `script` are the names of the files."""

    def __init__(self, words):
        given = ProgramWords(words)
        self.words = ProgramWords(map(raw, words))
        self.command, self.model, self.script = (given.others + ["", "", ""])[:3]
        self.drop = [event for event in self.words.options.get("--drop", "").split(",") if event]
        self.source = model.Source(self.model, given.options.get("--main"))

    @property
    def flat(self):
        return self.source.flat

    @property
    def tree(self):
        return self.source.tree

    def replay(self):
        """The words by which the script is replayed."""
        return ["replay", *self.source.main_option, *files_of(self.model, self.script)]

    def note(self, path, text, cause):
        """A note at the declaration of a thing, a unit or the main block."""
        if path in self.tree.places:
            name = self.tree.places[path][1]
            return Note(self.model, name.line, name.column, text, cause)
        for node in self.tree.nodes:
            if path == (node.path or "main"):
                name = node.scope.unit.name
                return Note(self.model, name.line, name.column, text, cause)
        return Note(self.model, None, None, text, cause)

    def transition(self, event):
        """The first transition or synchronisation of an event in the text."""
        unit = event.rpartition(".")[0]
        for node in self.tree.nodes:
            if node.path == unit:
                for member in self.tree.bodies.members(node.scope.unit):
                    if member.kind in ("transition", "synchronisation") and member.name.text == event.rpartition(".")[2]:
                        return member
        return None

    def at_transition(self, event, text, cause):
        member = self.transition(event)
        if member is None:
            return self.note(event, text, cause)
        return Note(self.model, member.name.line, member.name.column, text, cause)
