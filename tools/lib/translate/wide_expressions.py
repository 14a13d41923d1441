"""Reads expressions and instructions of AltaRica 3.0 as it is written. Forms that the profile lacks become edits at once.
Not proved."""
from collections import namedtuple

import grammar
from grammar import Expr, Instr
from translate import source
from translate.edits import Edit, apply
from translate.refused import Refused
from translate.wide_tokens import wide_tokens

Number = namedtuple("Number", "token context")
"""A number of an expression; `context` is the name that a setting or a parameter gives it to, or ``."""
NEVER = "\0"
"""The context of a number that is never scaled."""
ABSENT = {"package": "packages are not translated", "import": "an import is not followed: give the files as further words",
          "for": "loops are not translated: write what each round does", "function": "functions are not translated"}


class Expressions(source.Parser):
    """Expressions and instructions. `notes` are (text, place), `numbers` those of expressions, `used` the last names of
    their paths."""

    def __init__(self, text):
        self.text, self.tokens, self.number, self.wanted, self.open = text, wide_tokens(text), 0, set(), []
        self.bodies, self.attributes_of, self.kept_of = {}, {}, {}
        self.edits, self.notes, self.numbers, self.used = [], [], [], set()
        self.operators, self.records, self.arrays, self.indexed, self.context = {}, [], {}, {}, ""
        self.inline, self.loose, self.declaring = [], [], ""
        self.counts, self.compared, self.products = [], set(), []

    def fail(self):
        word = self.now.text
        if word in ABSENT and self.now.kind == "name":
            raise Refused(ABSENT[word], self.now)
        if self.now.kind in ("/", "string"):
            raise Refused("there is no division" if self.now.kind == "/" else "a string stands where it has no meaning", self.now)
        raise Refused("this is no AltaRica 3.0 that is read: `%s`, where one of these could come: %s"
                      % (word or "the end", " ".join(sorted(self.wanted))), self.now)

    # -- edits --------------------------------------------------------------------------------------------------------
    def replace(self, token, text):
        self.edits.append(Edit(token.start, token.end, text))

    def insert(self, at, text):
        self.edits.append(Edit(at, at, text))

    def around(self, first, last, before, behind):
        """Puts text around what is read from one token to another; outer text comes outside of inner."""
        number = len(self.edits)
        while number and self.edits[number - 1].start >= first.start:
            number -= 1
        self.edits.insert(number, Edit(first.start, first.start, before))
        self.insert(last.end, behind)

    def rendered(self, first, last):
        """The text from one token to another with its edits, which are then no longer kept."""
        number = len(self.edits)
        while number and self.edits[number - 1].start >= first.start:
            number -= 1
        found, self.edits[number:] = self.edits[number:], []
        return "".join(piece.text for piece in apply(self.text, first.start, last.end, found))

    def is_word(self, *words):
        return self.at("name") and self.now.text in words

    # -- expressions ----------------------------------------------------------------------------------------------------
    def path(self):
        first, start = self.now, ""
        if self.at("owner", "main"):
            start = self.next().kind
            self.take(".")
        names = [self.indexed_name()]
        while self.taken("."):
            names.append(self.indexed_name())
        return grammar.Path(start, names, first, self.last)

    def indexed_name(self):
        name = self.take("name")
        if self.at("["):
            self.next()
            index = self.take("whole")
            close = self.take("]")
            self.indexed.setdefault(name.text, []).append((name, int(index.text), close))
        return name

    def choice(self):
        first = self.now
        if self.at("if"):
            return super().choice()
        left = self.disjunction()
        while self.is_word("xor"):
            sign = self.next()
            right_first = self.now
            right = self.disjunction()
            self.around(first, self.last_before(sign), "((", ")")
            self.replace(sign, "!=")
            self.around(right_first, self.last, "(", "))")
            left = Expr("!=", [left, right], first, self.last)
        if self.at("=>"):
            sign = self.next()
            self.around(first, self.last_before(sign), "(not (", ")")
            self.replace(sign, "or")
            right_first = self.now
            right = self.choice()
            self.around(right_first, self.last, "(", "))")
            left = Expr("or", [left, right], first, self.last)
        return left

    def last_before(self, token):
        return self.tokens[self.number_of(token) - 1]

    def disjunction(self):
        return self.chain("or", lambda: self.chain("and", self.negation))

    def negation(self):
        first = self.now
        if self.taken("not"):
            return Expr("not", [self.negation()], first, self.last)
        left = self.sum()
        sign = self.taken(*grammar.COMPARISONS, "<>", "=")
        if not sign:
            return left
        if sign.kind in ("<>", "="):
            self.replace(sign, "!=" if sign.kind == "<>" else "==")
        number = len(self.numbers)
        right = self.sum()
        self.count_compared(left, right, first, number)
        return Expr({"<>": "!=", "=": "=="}.get(sign.kind, sign.kind), [left, right], first, self.last)

    def count_compared(self, left, right, first, number):
        """A count compared with a number: the number is one of things, and is not scaled."""
        if left.form == "count" and right.form == "literal":
            self.compared.add(left.first.start)
            self.unscaled(number)
        elif right.form == "count" and left.form == "literal":
            self.compared.add(right.first.start)
            self.numbers = [Number(one.token, NEVER) if one.token.start == first.start else one for one in self.numbers]

    def unscaled(self, number):
        self.numbers[number:] = [Number(one.token, NEVER) for one in self.numbers[number:]]

    def product(self):
        first, number = self.now, len(self.numbers)
        parts = [self.minus()]
        while self.taken("*"):
            parts.append(self.minus())
        if len(parts) == 1:
            return parts[0]
        if sum(part.form != "literal" for part in parts) > 1:
            self.products.append(first)
        self.numbers[number:] = [Number(one.token, NEVER if any(one.token is part.first for part in parts) else one.context)
                                 for one in self.numbers[number:]]
        return Expr("*", parts, first, self.last)

    def primary(self):
        first = self.now
        if self.at("#"):
            self.replace(self.next(), "count")
            self.take("(")
            parts = self.list_of(self.expr)
            self.take(")")
            self.counts.append(first)
            return Expr("count", parts, first, self.last)
        if self.at("count"):
            self.counts.append(first)
        if self.at("whole", "real"):
            self.numbers.append(Number(self.now, self.context))
        if self.at("name") and self.tokens[self.number + 1].kind == "(":
            return self.call()
        found = super().primary()
        if found.form == "path":
            self.used.add(found.parts[0].names[-1].text)
        return found

    def call(self):
        name = self.next()
        self.take("(")
        values, parts = [], []
        while not self.at(")"):
            begun = self.now
            parts.append(self.expr())
            values.append((begun, self.last))
            if not self.taken(","):
                break
        close = self.take(")")
        texts = []
        for begun, last in reversed(values):
            texts.insert(0, self.rendered(begun, last))
        if name.text == "abs" and len(texts) == 1:
            text = "max(%s, - (%s))" % (texts[0], texts[0])
        elif name.text in self.operators and len(self.operators[name.text][0]) == len(texts):
            text = "(%s)" % self._in_place(*self.operators[name.text], texts)
        elif name.text in self.operators:
            raise Refused("operator %s has %d parameters" % (name.text, len(self.operators[name.text][0])), name)
        else:
            raise Refused("%s is no operator that is declared above" % name.text, name)
        self.edits.append(Edit(name.start, close.end, text))
        return Expr("call", parts, name, close)

    @staticmethod
    def _in_place(names, text, values):
        """The text of an operator with values in place of its parameters."""
        found, before = [], ""
        at = 0
        for token in wide_tokens(text):
            found.append(text[at:token.start])
            is_parameter = token.kind == "name" and token.text in names and before != "."
            found.append("(%s)" % values[names.index(token.text)] if is_parameter else token.text)
            at, before = token.end, token.text
        return "".join(found)

    # -- instructions ---------------------------------------------------------------------------------------------------
    def instr(self):
        if self.at("switch"):
            return self.cases()
        if self.at("{"):
            found = super().instr()
            self.extra_semicolon()
            return found
        if self.at("skip", "if"):
            return super().instr() if self.at("if") else self.skipped()
        if not self.at("owner", "main", "name") or self.is_word("for"):
            self.fail()
        first, path = self.now, self.path()
        sign = self.take(":=", ":=:")
        parts = [path, self.expr() if sign.kind == ":=" else self.path()]
        self.end_of_assignment()
        found = Instr(sign.kind, parts, first, self.last)
        self.loose.append(found)
        return found

    def skipped(self):
        first = self.next()
        self.end_of_assignment()
        return Instr("skip", [], first, self.last)

    def end_of_assignment(self):
        if self.at("else", "}"):
            self.insert(self.last.end, ";")
        else:
            self.take(";")

    def extra_semicolon(self):
        if self.at(";"):
            self.replace(self.next(), "")

    def cases(self):
        """A `switch` of instructions, as choices."""
        first = self.next()
        self.replace(first, "")
        self.replace(self.take("{"), "")
        tests, word = [], "if"
        while self.at("case"):
            self.replace(self.next(), word)
            test = self.expr()
            self.replace(self.take(":"), " then {")
            tests.append((test, self.instruction()))
            self.insert(self.last.end, " }")
            word = "else if"
        default = None
        if self.at("default"):
            self.replace(self.next(), "else {" if tests else "{")
            self.replace(self.take(":"), "")
            default = self.instruction()
            self.insert(self.last.end, " }")
        self.replace(self.take("}"), "")
        self.extra_semicolon()
        for test, then in reversed(tests):
            default = Instr("if", [test, then, default], first, self.last)
        return default or Instr("skip", [], first, self.last)
