"""The ready command behind a listing that was refused for its size: the same words with `--max-order`. Not proved."""
import re

from asked import VALUED
from command import CALL

USUAL_NODES = 1000000
LISTINGS = {"cuts": "cuts", "checkcuts": "checkcuts", "modules": "cuts"}
"""The commands that list all cuts, each with the one that takes `--max-order`."""
PLAIN = re.compile(r"[\w@%+=:,./-]+", re.ASCII)
CONTROL = re.compile(r"[\x00-\x1f\x7f]")


def quoted(word):
    """A word as Bash reads it back, in one line."""
    if PLAIN.fullmatch(word):
        return word
    if CONTROL.search(word):
        text = word.replace("\\", "\\\\").replace("'", "\\'")
        return "$'%s'" % CONTROL.sub(lambda found: "\\%03o" % ord(found[0]), text)
    return "'%s'" % word.replace("'", "'\\''")


def pieces(words):
    """The words in pieces, an option with its value as one word, before `--` and from it on."""
    before, rest = [], list(words)
    while rest and rest[0] != "--":
        word = rest.pop(0)
        before.append("%s=%s" % (word, rest.pop(0)) if word in VALUED and rest else word)
    return before, rest


def is_kept(word):
    """Whether a word is asked for again: no number of events, and no number of nodes below the usual one."""
    name, _, value = word.partition("=")
    return name != "--max-order" and not (name == "--nodes" and value.isdecimal() and int(value) <= USUAL_NODES)


def order_below(before):
    """The number of events to ask for where these words ask for too much, or 0."""
    given = next((word.partition("=")[2] for word in before if word.startswith("--max-order=")), "3")
    return min(2, int(given) - 1) if given.isdecimal() else 0


def words_for(words):
    """The words that ask for the cuts of fewer events in place of these, or None where there are none."""
    before, behind = pieces(words)
    named = [word for word in before if not word.startswith("-") or word == "-"]
    verb = (named + behind[1:] + [""])[0]
    order = order_below(before)
    if verb not in LISTINGS or order < 1:
        return None
    place = before if named else behind
    place[place.index(verb)] = LISTINGS[verb]
    return [*filter(is_kept, before), "--max-order", str(order), *behind]


def command_for(words, line):
    """The command to try where these words are refused with this line, or nothing."""
    found = words_for(words) if re.match("nodes: |outside: S8 ", line) else None
    return "%s %s" % (CALL, " ".join(map(quoted, found))) if found else ""
