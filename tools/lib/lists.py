"""Lists of cuts, of the program and of other tools. Not proved.

A line is a cut in braces, `count N`, a remark behind `//`, or blank; blanks around labels, the ends of lines and a byte
order mark say nothing. `count N up to order K` ends a list of the cuts of at most K events: larger ones are not in it.
"""
import re
import sys

from command import CouldNot, NoUse, content_of, escaped, say, shown

MARK = b"\xef\xbb\xbf"
CUT = re.compile(rb"\{([^{}\x00-\x08\x0a-\x1f\x7f]*)\}")
COUNT = re.compile(rb"count +([0-9]{1,18})(?: +up +to +order +([0-9]{1,4}))?")
FIRST_WAY = b"#1"
MOST_EVENTS = 1000
BLANKS = b" \t\r"


def lines_of(name):
    """The lines of a file, of standard input where the name is `-`, without a byte order mark."""
    content = sys.stdin.buffer.read() if name == "-" else content_of(name)
    return (content[len(MARK):] if content.startswith(MARK) else content).split(b"\n")


def text_lines_of(name):
    """The same as texts with one character for each byte."""
    return [line.decode("latin-1") for line in lines_of(name)]


def words_of(line):
    """The words of a line, between which are blanks. Bytes of letters that are no ASCII are no blanks."""
    return [word for word in re.split("[ \t\r]+", line) if word]


def labels_of(inner):
    """The labels between the braces of a line, or None where one is missing."""
    labels = [label.strip(BLANKS) for label in inner.split(b",")]
    if labels == [b""]:
        return []
    return None if b"" in labels else labels


def order(word):
    """The number of events that an option takes, as `--max-order` of the program does."""
    if not (re.fullmatch("[1-9][0-9]{0,3}", word) and int(word) <= MOST_EVENTS):
        raise NoUse("`%s` is no number of events of a cut, from 1 to %d" % (word, MOST_EVENTS))
    return int(word)


def order_of(lines):
    """The number of events up to which a list has the cuts, or None where it has all."""
    counts = [COUNT.fullmatch(line.strip(BLANKS)) for line in lines if line.lstrip(BLANKS).startswith(b"count")]
    return min((int(count[2]) for count in counts if count and count[2]), default=None)


def say_order(name, lines, what):
    """Says of a list up to an order that larger cuts are not in it, and what that means."""
    order_there = order_of(lines)
    if order_there is not None:
        say("%s has the cuts up to order %d alone: %s" % (shown(name), order_there, what))


def cuts_of(name, lines, takes_bounded=False):
    """The labels of each cut of a list; CouldNot where a line is none of a list, or the list is not whole. One of the cuts up
    to an order is refused too, but for those who take it, and say so in what they write."""
    if not takes_bounded and order_of(lines) is not None:
        raise CouldNot("%s has the cuts up to order %d alone, and all are needed" % (shown(name), order_of(lines)))
    number, said = 0, None
    for at, line in enumerate(lines, 1):
        text = line.strip(BLANKS)
        cut = CUT.fullmatch(text)
        labels = labels_of(cut[1]) if cut else None
        if labels is not None:
            number += 1
            yield labels
        elif COUNT.fullmatch(text):
            said = int(COUNT.fullmatch(text)[1])
        elif text and not text.startswith(b"//"):
            raise CouldNot("%s:%d: this is no line of a list: %s" % (shown(name), at, escaped(text[:80].decode("latin-1"))))
    if said not in (None, number):
        raise CouldNot("%s is not whole: count %d, and %d cuts" % (shown(name), said, number))
    if said is None and not number:
        raise CouldNot("%s has no cut and no line `count 0`: it is no list" % shown(name))
