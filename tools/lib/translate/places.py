"""Places in the first texts of places in a text that was made of them by edits. Not proved."""
import bisect

import tokens


class Files:
    """The texts of some files, read as one. A place in it is an offset."""

    def __init__(self, names, texts):
        self.names, self.begins, self.tables, at = names, [], [], 0
        pieces = []
        for text in texts:
            if pieces and not pieces[-1].endswith("\n"):
                pieces.append("\n")
                at += 1
            self.begins.append(at)
            self.tables.append(tokens.Places(text))
            pieces.append(text)
            at += len(text)
        self.text = "".join(pieces)

    def of(self, at):
        """The file, the line and the column of an offset."""
        number = max(n for n, begin in enumerate(self.begins) if begin <= at)
        return (self.names[number], *self.tables[number].of(at - self.begins[number]))


class Trail:
    """What leads from a text back to the files: the edits that made it, the last first."""

    def __init__(self, files):
        self.files, self.steps, self.text = files, [], files.text

    def add(self, edited):
        self.steps.insert(0, edited)
        self.text = edited.text

    def of(self, at, skip=0):
        """The file, the line and the column of an offset in the text, or in the text of so many steps before."""
        for step in self.steps[skip:]:
            at = step.old(at)
        return self.files.of(at)

    def written(self, at, skip=0):
        return "%s:%d:%d" % self.of(at, skip)

    def rows(self):
        """The places where a piece of the text begins: [line, column, file, line, column, whether it runs on]."""
        begins = _begins(self.steps)
        new = tokens.Places(self.text)
        found = []
        for at in begins:
            same = at + 1 >= len(self.text) or self._old(at + 1) == self._old(at) + 1
            name, line, column = self.of(at)
            found.append([*new.of(at), self.files.names.index(name), line, column, same])
        return found

    def _old(self, at):
        for step in self.steps:
            at = step.old(at)
        return at


def _begins(steps):
    """The offsets in the text that these steps made, the last first, where a piece of one of them begins."""
    if not steps:
        return [0]
    inner, step, found = _begins(steps[1:]), steps[0], set()
    for begin, old, same, end in zip(step.begins, step.olds, step.same, [*step.begins[1:], len(step.text)]):
        found.add(begin)
        if same:
            some = inner[bisect.bisect_left(inner, old):bisect.bisect_left(inner, old + end - begin)]
            found.update(begin + one - old for one in some)
    return sorted(found | {0})


def place_in(rows, files, line, column):
    """The place in the files of a line and a column of the text, from its rows."""
    last = max((row for row in rows if (row[0], row[1]) <= (line, column)), key=lambda row: (row[0], row[1]))
    begin_line, begin_column, number, old_line, old_column, same = last
    if same and line == begin_line:
        old_column += column - begin_column
    elif same:
        old_line, old_column = old_line + line - begin_line, column
    return files[number], old_line, old_column
