"""The usual cause of a syntax refusal, said of what stands at its place. Not proved."""
from grammar import COMPARISONS
from tokens import RESERVED

VALUE = ("(", "-", "count", "false", "main", "max", "min", "name", "owner", "real", "switch", "true", "whole")

CHARACTERS = {
    "'": "no token begins with `'`: a symbol of a domain is a plain word, as `OK`",
    '"': "there are no strings, neither as values nor in attributes of events, and a model is one text that imports "
         "nothing",
    "#": "no token begins with `#`: how many of some conditions are true is written `count(a, b, c)`",
    "|": "no token begins with `|`: `or` is a word, and a transition is written `EVENT: GUARD -> ACTION;`",
    "/": "a division does not exist, and a comment begins with `//` or `/*`",
    "%": "no token begins with `%`, and there is no remainder",
}

NOT_MEMBERS = {
    "Integer": "a variable is Boolean or of a domain that the text declares, as `domain N [0, 9]`; `Integer` is a type of "
               "observers and parameters alone",
    "Real": "there are no Real variables, only `parameter Real NAME = ..;`, whose value is kept and not read",
    "{": "a variable's symbols are declared once, outside, as `domain NAME {A, B}`, and the variable is `NAME v (init = A);`",
    "init": "`init` is written in brackets after the names of a variable, as `Boolean v (init = true);`",
    "reset": "`reset` is written in brackets after the names of a variable, as `Boolean v (reset = false);`",
}

FIRST_WORDS = {
    "node": "a text of AltaRica Data-Flow: what is a `node` there is a `class` here, with other sections",
    "operator": "there are no operators of one's own: the expression is written where it is used, or in a flow",
    "function": "there are no functions of one's own: the expression is written where it is used, or in a flow",
    "package": "there are no packages: all classes and blocks are items of one text",
    "record": "there are no records: each of its fields is a variable, or the record a class of flows",
    "import": "a model is one text that imports nothing",
}

NEAR = {
    "assert": "assertion", "assertions": "assertion", "transitions": "transition", "trans": "transition", "events": "event",
    "observers": "observer", "observe": "observer", "param": "parameter", "parameters": "parameter", "extend": "extends",
    "classes": "class", "blocks": "block", "domains": "domain", "elsif": "else if", "elseif": "else if", "elif": "else if",
    "endclass": "end", "endblock": "end", "ends": "end",
}

SECTIONS = ("event", "transition", "assertion", "observer", "parameter", "extends")
"""Words of the language after which no class is called."""

OPERATORS = {
    "xor": "there is no `xor`: of truth values it is written `a != b`",
    "mod": "there is no remainder and no division",
    "div": "there is no remainder and no division",
    "iff": "there is no `iff`: of truth values it is written `a == b`",
    "implies": "there is no `implies`: it is written `not a or b`",
}


def name_of(token):
    return "the end of the text" if token.kind == "END" else "`%s`" % token.text


def article(wanted):
    return {"name": "a name", "whole": "a whole number", "END": "the end of the text", "real": "a real number"}.get(
        wanted, "`%s`" % wanted)


def listed(wanted):
    """What could stand at a place, in words."""
    wanted = set(wanted)
    if wanted >= set(VALUE):
        wanted = (wanted - set(VALUE) - {"not", "if"}) | {"an expression"}
    words = sorted("an expression" if w == "an expression" else article(w) for w in wanted)
    return words[0] if len(words) == 1 else ", ".join(words[:-1]) + " or " + words[-1]


def of_lex(fault, text):
    at = fault.at
    if fault.kind == "comment":
        return "the comment that begins here with `/*` is not closed by `*/`"
    if fault.kind == "number":
        return "a whole number is at most 9223372036854775807"
    if text.startswith("\xef\xbb\xbf") and at.start == 0:
        return "the text begins with a byte order mark (the bytes EF BB BF): save it as UTF-8 without one"
    if ord(at.text) >= 128:
        return "outside of comments there are letters, digits and signs of ASCII alone, in names too"
    if at.text == "#" and not text[:at.start].rpartition("\n")[2].strip():
        return "a comment begins with `//`"
    cause = CHARACTERS.get(at.text, "no token begins with `%s`" % at.text)
    first = text[:at.start].split(None, 1)[:1]
    return "%s; and %s" % (cause, FIRST_WORDS[first[0]]) if first and first[0] in ("node",) else cause


def adjacent(before, at):
    return before is not None and before.end == at.start


def unended(before):
    """The body that most likely lacks its `end`, by these tokens, in words: the one whose `end` is in the column of a body
    around it, else none."""
    bodies = []
    for number, token in enumerate(before):
        is_first = number == 0 or before[number - 1].line < token.line
        if token.kind in ("class", "block") and number + 1 < len(before):
            bodies.append((token, before[number + 1], is_first))
        elif token.kind == "end" and bodies:
            opened, name, was_first = bodies.pop()
            if is_first and was_first and token.column < opened.column:
                return "`%s %s`, which begins on line %d, has no `end` of its own: by its column the `end` on line %d is that of a " \
                       "body around it" % (opened.kind, name.text, opened.line, token.line)
    return None


def _of_end(fault, tokens):
    units = [(form, first) for form, first in fault.open if form.split(" ")[0] in ("class", "block") and " " in form]
    brackets = [first for form, first in fault.open if form in ("attributes", "bracket")]
    if brackets:
        return "the `(` on line %d, column %d, is not closed: any token may follow it, `;` too" % (
            brackets[-1].line, brackets[-1].column)
    if units and "end" in fault.wanted:
        return unended(tokens) or "`%s`, which begins on line %d, is not ended: one more `end` is needed, here or before" % (
            units[-1][0], units[-1][1].line)
    before = fault.before
    if before is not None and before.kind in ("block", "class", "domain"):
        return "the `%s` on line %d begins one more item: a body ends with `end` alone, and no word follows it" % (
            before.kind, before.line)
    if before is None:
        return "the text is empty: a model has at least one block"
    return None


def _of_semicolon(fault):
    at, before = fault.at, fault.before
    if at.line > before.line or at.kind in ("end", "}", "else", "END"):
        return "a `;` is missing after %s on line %d" % (name_of(before), before.line)
    return None


def followed(at, after, kind):
    """Whether the token at the place and the one behind it are one sign of two characters elsewhere."""
    return after is not None and after.kind == kind and adjacent(at, after)


def _of_header(fault, tokens=()):
    """Causes where a body begins, or where words of a section come without it."""
    at, before = fault.at, fault.before
    form = fault.open[-1][0] if fault.open else ""
    if before is not None and "extends" in fault.wanted and form.split(" ")[0] in ("class", "block"):
        if form.endswith(" " + before.text):
            if at.kind in ("{", ";", ":", "=") and at.line == before.line:
                return "the body of a class or block begins behind its name, with no `%s`, and ends with `end`" % at.text
            if at.kind == "(":
                return "a class has no list of parameters: each is declared in the body, as `parameter Level size = 3;`"
        if at.kind == ";" and before.kind == ";":
            return "one `;` ends a declaration, a transition or an assertion: this is one more"
        if at.kind in ("class", "domain"):
            inner = "; a part that exists once is a `block` in the body" if at.kind == "class" else ""
            return "a `%s` is an item of the text: the body before it needs its `end`%s%s" % (
                at.kind, lacking(fault, tokens), inner)
    if at.kind == ";" and before is not None and before.kind == ";" and "skip" in fault.wanted:
        return "one `;` ends a declaration, a transition or an assertion: this is one more"
    if at.kind == ":" and fault.wanted == {"name"}:
        return "transitions follow the word `transition`, as `transition %s: GUARD -> ACTION;`" % before.text
    if at.kind == ":=" and fault.wanted == {"name"} and form not in ("observer", "parameter"):
        return "assignments of flows follow the word `assertion`, as `assertion %s := VALUE;`" % before.text
    return None


def _of_settings(fault):
    """Causes where a variable's value or an observer's condition is written."""
    at, before = fault.at, fault.before
    form = fault.open[-1][0] if fault.open else ""
    if at.kind == "=" and form == "declaration" and ";" in fault.wanted:
        return "the first value of a variable is in brackets, as `(init = VALUE)` of a state or `(reset = VALUE)` of a flow"
    if at.kind in (":=", "==") and "=" in fault.wanted and not fault.wanted & {":=", "and"}:
        return "in settings, parameters and observers there is a single `=`"
    if at.kind == "name" and ";" in fault.wanted and "," in fault.wanted and before.kind == "name" and before.line == at.line:
        if form == "declaration":
            return "names in one declaration have commas between them"
        if at.text in ("delay", "hook", "policy", "expectation", "weight"):
            return "the attributes of an event are in brackets, as `event e (delay = ..);`"
        return "events in one list have commas between them"
    if at.kind == ";" and fault.wanted == {"name"} and before.kind == "name":
        return "a declaration begins with a type, and names in one declaration have commas between them, as `C a, b;`"
    return None


def _of_declaration(fault):
    at, before = fault.at, fault.before
    form = fault.open[-1][0] if fault.open else ""
    if at.kind == "-" and before.kind == "name" and adjacent(before, at):
        return "a name has letters, digits and `_`: `-` is no part of it"
    if at.kind == "." and before.kind == "whole" and fault.wanted == {","}:
        return "the ends of a range have a comma between them, as `domain N [0, 3]`"
    if before.kind in ("owner", "main") and "." in fault.wanted:
        return "a path ends with a name: `%s` alone names nothing, as in `%s.NAME`" % (before.kind, before.kind)
    if at.kind == "(" and ";" in fault.wanted and "(" not in fault.wanted:
        first = fault.open[-1][1].kind
        if first in ("extends", "clones", "embeds"):
            return ("`%s` takes no settings: they are written where parts are declared, as `C p (x = 1);`" % first)
    if at.kind == "," and before.kind == ")" and form == "declaration":
        return ("a declaration has its settings once, after all its names, and they hold for all of them: write two "
                "declarations, as `C a (x = 1); C b;`")
    if at.kind == "Boolean" and before.kind == "name" and (at.line == before.line or before is fault.open[-1][1]):
        return "a declaration begins with its type, as `Boolean`: `%s` is no word of the language" % before.text
    if at.kind == "[" and form == "declaration":
        return "there are no arrays of parts: each has a name of its own, as `C c1, c2, c3;`"
    if at.kind == "(" and form == "declaration" and "," in fault.wanted:
        first = fault.open[-1][1]
        if first.text.lower() == "event":
            return "`%s` is no word of the language: it is written `event`" % first.text
        return "attributes of events cannot be set from outside: they are kept and not read"
    if at.kind in RESERVED and "name" in fault.wanted and before.kind in ("name", "Boolean", ",", "event", "as", "class",
                                                                         "block", "domain", "{"):
        return "`%s` is a word of the language, so it cannot be a name" % at.text
    if form in ("observer", "parameter") and at.kind == "=" and fault.wanted == {"name"}:
        return "%s has a type before its name, as `%s Boolean %s = ..`" % (
            "an observer" if form == "observer" else "a parameter", form, before.text)
    if form in ("observer", "parameter") and at.kind == "Real":
        return "an observer is Boolean, Integer or of a declared domain: there are no Real values"
    return None


def _of_lists(fault):
    at, before = fault.at, fault.before
    if at.kind == "}" and before.kind == "{" and fault.open and fault.open[-1][0] == "domain":
        return "a domain has at least one value"
    if before is not None and before.kind == "," and at.kind in ("}", ")", ";"):
        return "a `,` comes between two things, and none after the last"
    return None


def _of_section(fault, after):
    at, before, form = fault.at, fault.before, fault.open[-1][0] if fault.open else ""
    if form in ("transition of an event", "instruction") and at.kind == "name" and before.kind == "name" and (
            fault.wanted & {":", ":="}):
        if ":" in fault.wanted and before.text in ("for", "while", "foreach") or before.text in ("for", "while"):
            return "there are no loops: each assertion is written out"
        is_declaration = after is not None and after.kind in ("(", ",", ";")
        if form == "transition of an event" and not is_declaration:
            return "a transition is written `EVENT: GUARD -> ACTION;`: the `:` is missing after `%s`" % before.text
        if not is_declaration:
            return "an assignment is written `FLOW := VALUE;`: the `:=` is missing after `%s`" % before.text
        if form == "transition of an event" or before.line == at.line:
            section = next(f for f, _ in reversed(fault.open) if f in ("transition", "assertion"))
            cause = ("a declaration that begins with a name comes before the first `transition` or `assertion` of its body, "
                     "and this one comes in the section `%s`" % section) + inner_end(fault)
            return cause + ("; or the `:=` of an assignment is missing" if section == "assertion" and after.kind == ";" else "")
    if at.kind == "switch" and form == "instruction":
        return "`switch` is an expression, after `:=`, as `s := switch { case TEST: VALUE default: VALUE };`"
    if at.kind == ";" and before is not None and before.kind == "}":
        return "no `;` follows the `}` of a list of instructions: each instruction in it ends with its own `;`"
    if "->" in fault.wanted and ":=" not in fault.wanted and (
            at.kind in ("then", "=", ":=") and not (at.kind == "=" and not followed(at, after, ">")) or at.kind == "name"
            and at.text.lower() not in RESERVED and at.text not in OPERATORS):
        return "a transition is written `EVENT: GUARD -> ACTION;`, with `->` between the guard and the action"
    if at.kind == ";" and "->" in fault.wanted and "and" in fault.wanted:
        return "a transition has an action behind its guard, as `EVENT: GUARD -> STATE := VALUE;`"
    if at.kind == "->" and "not" in fault.wanted:
        return "a transition has a guard before `->`: where it can always happen, this is `true`"
    if at.kind == "==" and ":=" in fault.wanted:
        return "an assignment is written `:=`; `==` is a comparison, and compares nothing where an assignment begins"
    if at.kind == "switch" and "skip" in fault.wanted:
        return "`switch` is an expression, after `:=`: for instructions write `if TEST then .. else ..`"
    if at.kind == "," and form in ("instruction", "transition of an event") and ";" in fault.wanted and after is not None and (
            after.line > at.line):
        return "a transition and an assertion end with `;`: write `;` for this `,`"
    if at.kind == "," and form in ("instruction", "transition of an event") and "and" in fault.wanted and ";" in fault.wanted:
        return "an assignment ends with `;`: those of one transition are in braces, as `{ a := 1; b := 2; }`"
    if at.kind in ("and", "+", "or") and "&" in fault.wanted:
        return "the parts of a synchronisation are joined by `&`"
    if at.kind == ":" and "skip" in fault.wanted:
        return "no `:` follows `assertion`"
    if at.kind == "," and ":=" in fault.wanted and form == "instruction":
        return "an assignment sets one flow: write one for each, as `a := x; b := x;`"
    if at.kind == "not" and "skip" in fault.wanted:
        return "an action gives a state its new value, as `ok := false`"
    if at.kind == "=" and ":=" in fault.wanted:
        return "an assignment is written `:=`; `=` is for declarations alone"
    if at.kind == "," and form == "transition of an event" and ":" in fault.wanted:
        return "a transition is one of one event: each event has a line of its own, as `e: GUARD -> ACTION;`"
    if "then" in fault.wanted and "and" in fault.wanted and at.kind not in ("=", "&", "/", "!", "(") and at.kind not in COMPARISONS:
        return "an `if` has a `then` behind its test, as `if TEST then FLOW := VALUE;`"
    if at.kind == "." and form == "transition of an event" and ":" in fault.wanted:
        return "a transition names an event of its own unit, without a path: it is written in the unit that declares the event"
    if at.kind == ":=" and form == "transition of an event" and ":" in fault.wanted:
        return "the assignments of one transition are in braces, as `e: GUARD -> { a := 1; b := 2; }`"
    if at.kind == "(" and form == "transition of an event" and ":" in fault.wanted:
        return "the attributes of an event are written where it is declared, as `event e (delay = ..);`"
    return None


def _of_expression(fault, after):
    at, before = fault.at, fault.before
    if at.kind == "}" and fault.open[-1][0] == "switch" and "default" in fault.wanted:
        return "a `switch` ends with `default: VALUE`, for when none of its tests is true"
    if "else" in fault.wanted and "and" in fault.wanted and at.kind in (";", "end", ")", "}", ","):
        return "an `if` in an expression has an `else`, so that it always has a value"
    if "and" in fault.wanted:
        if at.kind == ";" and ")" in fault.wanted and "," in fault.wanted:
            return "the operands of `count`, `min` and `max` have commas between them, and end with `)`"
        if at.kind == ";" and ")" in fault.wanted:
            return "a bracket is open: a `)` is missing before the `;`"
        if at.kind == ")" and ")" not in fault.wanted:
            return "this `)` closes no bracket"
        if at.kind in COMPARISONS:
            return "a comparison has two sides: two comparisons are joined by `and`, as `0 < n and n < 3`"
        if at.kind == "=":
            if after is not None and after.kind == ">" and adjacent(at, after):
                return "there is no `=>`: at least is written `>=`, and where a implies b `not a or b`"
            return "a comparison is written `==`"
        if at.kind == "&":
            return "`and` is a word: `&` joins the parts of a synchronisation alone"
        if at.kind == "/":
            return "there is no division"
        if at.kind == "!":
            return "`not` is a word: `!` marks the parts of a synchronisation alone"
        if at.kind == "name" and before.kind == "whole" and adjacent(before, at):
            return "at least two of three is written `count(a, b, c) >= 2`"
        if at.kind == ":=" and ";" in fault.wanted:
            return "an assignment sets one flow: write one for each, as `a := x; b := x;`"
        if at.kind == "name" and at.text in OPERATORS:
            return OPERATORS[at.text]
        if at.kind == "(" and before.kind == "name":
            return ("`%s(..)` is no call of the language: there are `min`, `max` and `count`, and the attributes of an event "
                    "cannot be set from outside" % before.text)
    if at.kind == ">" and before is not None and before.kind == "<" and adjacent(before, at):
        return "`<>` is written `!=`"
    if at.kind == "!" and "not" in fault.wanted:
        return "`not` is a word: `!` marks the parts of a synchronisation alone"
    return None


def meant(token, is_first):
    """The word of the language that a name is most likely meant for, or None."""
    if token is None or token.kind != "name":
        return None
    if token.text.lower() in RESERVED:
        return token.text.lower()
    word = NEAR.get(token.text.lower())
    return word if is_first or word == "else if" else None


def _of_word(fault):
    """A cause where the form at the place begins with a name that is nearly a word of the language."""
    first, before, at = fault.open[-1][1] if fault.open else fault.at, fault.before, fault.at
    is_class = (fault.open and fault.open[-1][0] == "declaration" and first is not before and first.text.istitle()
                and first.text.lower() not in SECTIONS)
    tokens = [] if is_class else [first]
    is_name = fault.open and before is not None and fault.open[-1][0].endswith(" " + before.text)
    if before is not None and before.line == at.line:
        tokens += [at] if is_name else [before, at]
    for token in tokens:
        word = meant(token, token is first)
        if word:
            return "`%s` is no word of the language: it is written `%s`" % (token.text, word)
    return None


def lacking(fault, tokens):
    """Which body lacks its `end`: by the columns, else the innermost that is open."""
    inner = [(form, first) for form, first in fault.open if form.split(" ")[0] in ("class", "block") and " " in form]
    said = unended(tokens)
    return ". " + said if said else ": `%s` of line %d is open" % (inner[-1][0], inner[-1][1].line) if inner else ""


def of_syntax(fault, after, tokens=()):
    """The cause of a SyntaxFault; `after` is the token behind its place, or None, `tokens` are those before it."""
    at = fault.at
    near = _of_word(fault)
    if near:
        return near
    if not fault.open and at.kind == "name" and at.text in FIRST_WORDS:
        return FIRST_WORDS[at.text]
    if not fault.open and at.kind != "END" and fault.wanted <= {"domain", "class", "block", "END"}:
        return _of_item(fault)
    if at.kind in NOT_MEMBERS and "extends" in fault.wanted:
        return _of_header(fault, tokens) or NOT_MEMBERS[at.kind]
    if "extends" in fault.wanted and at.kind == "name":
        return _of_member(fault, after)
    tries = [lambda: _of_section(fault, after), lambda: _of_lists(fault), lambda: _of_header(fault, tokens),
             lambda: _of_declaration(fault), lambda: _of_settings(fault), lambda: _of_expression(fault, after)]
    if at.kind == "END":
        tries.insert(0, lambda: _of_end(fault, tokens))
    for one in tries:
        cause = one()
        if cause:
            return cause
    if fault.before is not None and fault.wanted & {";"}:
        cause = _of_semicolon(fault)
        if cause:
            return cause
    return "this is %s, and what can come here is %s" % (name_of(at), listed(fault.wanted))


def _of_member(fault, after):
    """A cause where a name begins a member behind the first section of a body."""
    if after is not None and after.kind in (":", ":=", ":=:", "."):
        section = "transition" if after.kind == ":" else "assertion"
        return ("the member before it has ended the section `%s`: write `%s` again before `%s`, or move that member up, before the "
                "section" % (section, section, fault.at.text))
    return ("a declaration that begins with a name comes before the first `transition` or `assertion` of its body" +
            inner_end(fault))


def inner_end(fault):
    """Which `end` may be missing where a declaration comes too late: that of an inner block."""
    inner = [(form, first) for form, first in fault.open[1:] if form.startswith("block ")]
    return "; or the `end` of `%s`, which begins on line %d, is missing" % (inner[-1][0], inner[-1][1].line) if inner else ""


def _of_item(fault):
    at = fault.at
    if at.kind == "end":
        return "one `end` more than there are bodies: the one before ended the last open body"
    if at.kind == ";":
        return "no `;` follows the `end` of a class or block"
    if at.kind == "-":
        return "a comment begins with `//`"
    if at.kind == "if":
        return "an `if` has no `end`: the `end` before it ended the body"
    return "a text is made of `domain`, `class` and `block` alone, and this is %s%s" % (
        name_of(at), "" if fault.before is None else ": the body before is ended already")
