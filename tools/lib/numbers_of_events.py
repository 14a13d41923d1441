"""Numbers of events from a file: lines `LABEL NUMBER`, each number from 0 to 1. Not proved."""
import re

import lists
from command import CouldNot, escaped, shown

NUMBER = re.compile(r"[0-9]+(\.[0-9]+)?([eE][+-]?[0-9]+)?")


def wrong(words, found):
    """Why the words of a line give no event its number, or nothing."""
    if len(words) != 2:
        return "this is no label and number: %s" % escaped(" ".join(words)[:80])
    if not NUMBER.fullmatch(words[1]) or float(words[1]) > 1:
        return "`%s` is no number from 0 to 1" % escaped(words[1])
    if float(words[1]) == 0 and re.match("[0.]*[1-9]", words[1]):
        return "`%s` is too small to be reckoned with" % words[1]
    return "`%s` has a number already" % escaped(words[0]) if words[0] in found else ""


def read(name):
    """The number of each label of a file; blank lines and remarks behind `//` say nothing."""
    found = {}
    for at, line in enumerate(lists.text_lines_of(name), 1):
        words = lists.words_of(line.split("//")[0].replace(",", " "))
        if words:
            why = wrong(words, found)
            if why:
                raise CouldNot("%s:%d: %s" % (shown(name), at, why))
            found[words[0]] = float(words[1])
    return found
