"""The system of a model, read from what the program writes for `flat`, to compare with that of the text. It cannot be
told there whether a word is a symbol or a variable of the main block, where both have one name."""
import re

PIECE = re.compile(r"\s*(:=|:|-?[0-9]+|==|!=|<=|>=|[A-Za-z_][A-Za-z0-9_.]*|[(){},<>+*-])")


class Reader:
    """An expression of the flat text."""

    def __init__(self, text, names):
        self.pieces, self.at, self.names = PIECE.findall(text), 0, names

    def next(self):
        self.at += 1
        return self.pieces[self.at - 1]

    def now(self):
        return self.pieces[self.at] if self.at < len(self.pieces) else ""

    def expression(self):
        word = self.next()
        if word == "(":
            return self.bracket()
        if word in ("min", "max", "count") and self.now() == "(":
            self.next()
            found = [self.expression()]
            while self.next() == ",":
                found.append(self.expression())
            return (word, *found)
        if word == "switch" and self.now() == "{":
            return self.switch()
        if word in self.names:
            return ("variable", word)
        if word in ("true", "false"):
            return ("value", word == "true")
        return ("value", int(word) if re.fullmatch("-?[0-9]+", word) else word)

    def switch(self):
        self.next()
        cases = []
        while self.next() == "case":
            test = self.expression()
            self.next()
            cases.append((test, self.expression()))
        self.next()
        default = self.expression()
        self.next()
        return ("switch", tuple(cases), default)

    def bracket(self):
        if self.now() in ("not", "-"):
            form = "not" if self.next() == "not" else "negative"
            found = (form, self.expression())
        elif self.now() == "if":
            found = ("if",)
            for _ in range(3):
                self.next()
                found += (self.expression(),)
        else:
            found = self.expression()
            while self.now() != ")":
                if re.fullmatch("-[0-9]+", self.now()):
                    found = ("-", found, ("value", -int(self.next())))
                else:
                    found = (self.next(), found, self.expression())
        self.next()
        return found


def normal(tree):
    """The tree with a switch as choices, and with lists as pairs."""
    if tree[0] in ("value", "variable"):
        return tree
    if tree[0] == "switch":
        found = normal(tree[2])
        for test, then in reversed(tree[1]):
            found = ("if", normal(test), normal(then), found)
        return found
    inner = [normal(part) for part in tree[1:]]
    if tree[0] == "negative" and inner[0][0] == "value":
        return ("value", -inner[0][1])
    if tree[0] in ("and", "or"):
        found = inner[0]
        for one in inner[1:]:
            found = (tree[0], found, one)
        return found
    return (tree[0], *inner)


def assignment(text, names):
    target, _, rest = text.partition(" := ")
    reader = Reader(rest, names)
    tree, conditions = reader.expression(), []
    while reader.now() in ("when", "unless"):
        wanted = reader.next() == "when"
        conditions.append((reader.expression(), wanted))
    return target, normal(tree), [(normal(test), wanted) for test, wanted in conditions]


def pieces(text):
    """Assignments with commas between them."""
    found, depth, begin = [], 0, 0
    for at, sign in enumerate(text):
        depth += (sign == "(") - (sign == ")")
        if sign == "," and not depth:
            found.append(text[begin:at].strip())
            begin = at + 1
    return [*found, text[begin:].strip()]


def read(text):
    """The lines of the flat text in one form: variables, ways, assignments with places, observers."""
    lines = text.splitlines()
    names = {line.split(" ")[1] for line in lines if line.startswith(("state ", "flow "))}
    found = []
    for line in lines:
        word, _, rest = line.partition(" ")
        if word in ("state", "flow"):
            found.append(line)
        elif word == "observer":
            path, _, tree = rest.partition(" = ")
            found.append(("observer", path, normal(Reader(tree, names).expression())))
        elif word == "assert":
            _, _, place, rest = rest.split(" ", 3)
            found.append(("assert", place, *assignment(rest, names)))
        else:
            label, _, body = line[11 if word == "hidden" else 4:].partition(": ")
            if body[0] in "!?":
                found.append((word, label, body))
            else:
                guard, _, sets = body.partition(" -> ")
                sets = [] if sets == "skip" else [assignment(one, names) for one in pieces(sets)]
                found.append((word, label, normal(Reader(guard, names).expression()), sets))
    return found
