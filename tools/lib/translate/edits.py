"""Edits of a text: pieces of it are replaced, and each place of the new text has one in the old. Not proved."""
import bisect
from collections import namedtuple

Edit = namedtuple("Edit", "start end text")
"""The text from `start` to `end` gets another; what is inserted at one place comes in the order of the edits."""
Piece = namedtuple("Piece", "text old")
"""A piece of the new text; `old` is the place in the old text that it comes from or that it was written for."""


def indent_of(text, at):
    """The blanks at the begin of the line of a place."""
    begin = text.rfind("\n", 0, at) + 1
    end = begin
    while end < len(text) and text[end] in " \t":
        end += 1
    return text[begin:end]


def is_first(text, at):
    """Whether only blanks come before a place on its line."""
    return not text[text.rfind("\n", 0, at) + 1:at].strip()


def line_of(text, at):
    """Where the line of a place begins."""
    return text.rfind("\n", 0, at) + 1


def behind(text, at):
    """The end of the line of a place, if only blanks and a comment come behind it; else the place."""
    end = text.find("\n", at)
    end = len(text) if end < 0 else end
    rest = text[at:end].strip()
    return end if not rest or rest.startswith("//") else at


def joined(text, edits):
    """The edits in order; what is taken out with blanks between is one, and takes blank lines with it."""
    found = []
    for one in sorted(edits, key=lambda edit: (edit.start, edit.end > edit.start)):
        last = found[-1] if found else None
        if last and not one.text and not last.text and not text[last.end:one.start].strip():
            found[-1] = Edit(last.start, one.end, "")
        else:
            found.append(one)
    return [_whole_lines(text, one) if not one.text and one.end > one.start else one for one in found]


def _whole_lines(text, one):
    end = text.find("\n", one.end)
    if is_first(text, one.start) and end >= 0 and not text[one.end:end].strip():
        return Edit(line_of(text, one.start), end + 1, "")
    end = one.end
    while end < len(text) and text[end] == " ":
        end += 1
    return Edit(one.start, end, "")


def apply(text, start, end, edits):
    """The pieces of a stretch of the text with its edits."""
    ends = {one.start: one.end for one in edits if not one.text}
    found, at, end_of_last = [], start, start
    for one in joined(text, edits):
        if one.start < at:
            # What is inserted behind a piece whose line goes as a whole stays; what is inside of it goes with it.
            if one.start == one.end and one.start >= end_of_last:
                found.append(Piece(one.text, one.start))
            continue
        if one.start > at:
            found.append(Piece(text[at:one.start], at))
        if one.text:
            found.append(Piece(one.text, one.start))
        at, end_of_last = max(at, one.end), ends.get(one.start, one.end)
    if end > at:
        found.append(Piece(text[at:end], at))
    return found


class Edited:
    """A new text made of pieces, and the place in the old text of each of its places."""

    def __init__(self, old, pieces):
        self.text = "".join(piece.text for piece in pieces)
        self.begins, self.olds, self.same, at = [], [], [], 0
        for piece in pieces:
            if piece.text:
                self.begins.append(at)
                self.olds.append(piece.old)
                self.same.append(old.startswith(piece.text, piece.old))
            at += len(piece.text)

    def old(self, at):
        """The place in the old text of a place in the new one."""
        if not self.begins:
            return 0
        number = max(0, bisect.bisect_right(self.begins, at) - 1)
        return self.olds[number] + (at - self.begins[number] if self.same[number] else 0)

    def table(self):
        """(place in the new text, place in the old text, whether both run on together), for `placed`."""
        return [list(row) for row in zip(self.begins, self.olds, self.same)]


def placed(table, at):
    """The old place of a new one, from a table."""
    number = max(0, bisect.bisect_right([row[0] for row in table], at) - 1)
    begin, old, same = table[number]
    return old + (at - begin if same else 0)
