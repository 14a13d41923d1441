"""token_classes.py textmate GRAMMAR MODEL..    each token of the models that the grammar's patterns give no class, or another
one than its kind has; token_classes.py places MODEL: a line `LINE COLUMN KIND` for each token."""
import json
import os
import re
import sys

sys.dont_write_bytecode = True
sys.path.insert(0, os.path.join(os.path.dirname(os.path.realpath(__file__)), "..", "lib"))
import tokens

KINDS = {"name": "variable.other", "whole": "constant.numeric.integer", "real": "constant.numeric.float"}


def spans(patterns, text):
    """Each match of the patterns with its class, as an editor finds them: the first from left to right, the earlier
    pattern where two begin together; a pattern with an end goes on over lines."""
    found, closing = [], None
    offset = 0
    for line in text.split("\n"):
        at = 0
        while at <= len(line):
            if closing:
                ended = closing[1].search(line, at)
                end = ended.end() if ended else len(line)
                found.append((offset + at, offset + end, closing[0]))
                at = end if ended else len(line) + 1
                closing = None if ended else closing
                continue
            tries = [(m.start(), n, m) for n, (_, form, _) in enumerate(patterns) for m in [form.search(line, at)] if m]
            if not tries:
                break
            _, number, match = min(tries, key=lambda t: t[:2])
            name, _, end = patterns[number]
            found.append((offset + match.start(), offset + match.end(), name))
            at = match.end()
            closing = (name, end) if end else None
        offset += len(line) + 1
    return found


def textmate(grammar, models):
    with open(grammar, encoding="utf-8") as file:
        rules = json.load(file)["patterns"]
    patterns = [(r["name"], re.compile(r.get("match") or r["begin"]), re.compile(r["end"]) if "end" in r else None)
                for r in rules]
    words = " ".join(tokens.RESERVED + tokens.SIGNS) + " name 12 1.5e-3"
    for model, text in [(m, tokens.read(m)) for m in models] + [("the closed lists", words)]:
        classes = {begin: (end, name) for begin, end, name in spans(patterns, text)}
        for token in tokens.tokens(text)[:-1]:
            end, name = classes.get(token.start, (None, "none"))
            wanted = KINDS.get(token.kind)
            right = name.startswith(wanted) if wanted else not name.startswith(("variable.other", "constant.numeric", "none",
                                                                              "comment"))
            if end != token.end or not right:
                print("%s:%d:%d: %s has the class %s" % (model, token.line, token.column, token.text, name))


if sys.argv[1] == "textmate":
    textmate(sys.argv[2], sys.argv[3:])
else:
    for token in tokens.tokens(tokens.read(sys.argv[2]))[:-1]:
        print(token.line, token.column, token.kind)
