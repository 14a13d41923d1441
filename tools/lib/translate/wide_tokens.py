"""The tokens of AltaRica 3.0 as it is written: those of the profile, strings, and signs that the profile lacks. Not
proved."""
import re

import tokens
from translate.refused import Refused

MORE_SIGNS = ("<>", "=>", "#", "/")
_STRING = re.compile(r'"[^"\n]*"')
_SIGN = re.compile("|".join(re.escape(s) for s in sorted((*tokens.SIGNS, *MORE_SIGNS), key=len, reverse=True)))
_FORMS = (("string", _STRING), ("real", re.compile(r"[0-9]+(?:\.[0-9]+(?:[eE][+-]?[0-9]+)?|[eE][+-]?[0-9]+)")),
          ("whole", re.compile(r"[0-9]+")), ("name", re.compile(r"[A-Za-z_][A-Za-z0-9_]*")), ("sign", _SIGN))
_SKIPPED = re.compile(r"(?:[ \t\r\n]+|//[^\n]*|/\*.*?\*/)+", re.S)


def wide_tokens(text):
    """The tokens, the last of which is the end of the text; Refused where one of them does not begin."""
    places, found, at = tokens.Places(text), [], 0
    while True:
        skipped = _SKIPPED.match(text, at)
        at = skipped.end() if skipped else at
        place = places.of(at)
        if at == len(text):
            found.append(tokens.Token("END", "", *place, at, at))
            return found
        kind, word = _kind_at(text, at)
        token = tokens.Token(kind, word, *place, at, at + len(word))
        if not kind or word == "/" and text.startswith("/*", at):
            raise Refused("no word or sign of AltaRica begins here" if not kind else "this comment does not end", token)
        found.append(token)
        at = token.end


def _kind_at(text, at):
    for kind, form in _FORMS:
        found = form.match(text, at)
        if found:
            word = found.group()
            plain = kind == "sign" or word in tokens.RESERVED
            return word if plain else kind, word
    return "", ""
