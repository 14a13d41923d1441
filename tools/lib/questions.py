"""Questions of a model: an observer, the value that is asked for, and the main block. Not proved.

A question is written `[BLOCK:]OBSERVER[=VALUE]`, several with commas between them.
"""
from collections import namedtuple

import texts
from command import NoUse, Refused, shown
from model import Source

Question = namedtuple("Question", "name block observer value")
"""name is the text of the question; block and value are None where they are not given."""


def read(text, block=None):
    """A question as it is written; `block` is the main block where it names none."""
    head, equals, value = text.partition("=")
    before, colon, observer = head.rpartition(":")
    return Question(text, before if colon else block, observer, value if equals else None)


def read_all(text, block=None):
    """The questions of a word, which has commas between them; none where there is no word."""
    if text is None:
        return []
    found = [read(one, block) for one in text.split(",")]
    if not all(question.observer for question in found):
        raise NoUse("`%s` does not name an observer in each place" % text)
    return found


def boolean_observers(source):
    """The Boolean observers of a main block, in order, and the others."""
    found = [(path, source.tree.places[path][2]) for path in source.tree.of_kind("observer")]
    return ([path for path, member in found if member.parts[0].kind == "Boolean"],
            [path for path, member in found if member.parts[0].kind != "Boolean"])


def all_of(source):
    """A question for each Boolean observer of a main block, and the names of the other observers."""
    source.ask("check")
    asked, others = boolean_observers(source)
    return [Question(path, source.main, path, None) for path in asked], others


def listing(file, question, drop=None, order=None):
    """The minimal cut sets of a question, those of at most `order` events where that is given, each as its labels; Refused
    where the program refuses it."""
    options = ["--observer=" + question.observer]
    options += [] if question.value is None else ["--value=" + question.value]
    options += [] if drop is None else ["--drop=" + drop]
    options += [] if order is None else ["--max-order=%d" % order]
    try:
        return texts.cuts(Source(file, question.block).ask("cuts", options))
    except Refused as refused:
        last = refused.text.rstrip("\n").split("\n")[-1]
        raise Refused(refused.words, refused.status, "%s: %s" % (shown(question.name), last), file) from refused
