"""The tokens of a model, for the helpers beside the program. Not proved.

The text is taken as bytes (one character of the string a byte), so columns count bytes, as those of the program do.
"""
import re
from collections import namedtuple

from command import content_of

RESERVED = tuple(
    "and as assertion block Boolean case class clones count default domain else embeds end event extends false hide if "
    "init Integer main max min not observer or owner parameter Real reset skip switch then transition true".split())
SIGNS = tuple("{ } [ ] ( ) , ; : . = := == != < <= > >= + - * / -> ! ? & :=:".split())
LARGEST = 2**63 - 1

Token = namedtuple("Token", "kind text line column start end")
"""kind is `name`, `whole`, `real`, `END` (of the text), or the text itself for a sign or a reserved word."""

_SKIPPED = re.compile(r"[ \t\r\n]+|//[^\n]*|/\*.*?\*/", re.S)
_REAL = re.compile(r"[0-9]+(?:\.[0-9]+(?:[eE][+-]?[0-9]+)?|[eE][+-]?[0-9]+)")
_WHOLE = re.compile(r"[0-9]+")
_NAME = re.compile(r"[A-Za-z_][A-Za-z0-9_]*")
_SIGN = re.compile("|".join(re.escape(s) for s in sorted(SIGNS, key=len, reverse=True)))


class LexFault(Exception):
    """No token begins here. kind is `byte`, `comment` or `number`."""

    def __init__(self, kind, at):
        super().__init__(kind)
        self.kind, self.at = kind, at


class Places:
    """The line and column of each byte of a text."""

    def __init__(self, text):
        self.starts = [0] + [i + 1 for i, c in enumerate(text) if c == "\n"]
        self.text = text

    def of(self, at):
        low, high = 0, len(self.starts)
        while high - low > 1:
            middle = (low + high) // 2
            low, high = (middle, high) if self.starts[middle] <= at else (low, middle)
        return low + 1, at - self.starts[low] + 1

    def at(self, line, column):
        return self.starts[min(line, len(self.starts)) - 1] + column - 1


def read(path):
    """The bytes of a file as a string with one character for each."""
    return content_of(path).decode("latin-1")


def _kind_at(text, at):
    for kind, form in (("real", _REAL), ("whole", _WHOLE), ("name", _NAME), ("sign", _SIGN)):
        found = form.match(text, at)
        if found:
            word = found.group()
            return ("" if kind == "sign" or word in RESERVED else kind) or word, word
    return None, ""


def tokens(text):
    """The tokens, the last of which is the end of the text; LexFault where one of them does not begin."""
    places, found, at = Places(text), [], 0
    while True:
        skipped = _SKIPPED.match(text, at)
        if skipped:
            at = skipped.end()
            continue
        line, column = places.of(at)
        if at == len(text):
            found.append(Token("END", "", line, column, at, at))
            return found
        if text.startswith("/*", at):
            raise LexFault("comment", Token("END", "", line, column, at, at + 2))
        kind, word = _kind_at(text, at)
        if kind is None:
            raise LexFault("byte", Token("END", text[at], line, column, at, at + 1))
        token = Token(kind, word, line, column, at, at + len(word))
        if kind == "whole" and int(word) > LARGEST:
            raise LexFault("number", token)
        found.append(token)
        at += len(word)
