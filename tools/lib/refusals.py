"""What the refusals mean, in tables: what the helpers know of the program's rules, limits, commands and words. Not proved."""

RULES = {
    "L1": "two items have one name, or a domain is not one: a symbol twice, a low end above the high end, more than 256 "
          "values",
    "L2": "no class or domain of the kind that is needed here has this name",
    "L3": "a class or a block contains itself",
    "L4": "two members of a unit have this name, inherited ones included",
    "L5": "there is no main block",
    "L6": "this path names no unit",
    "L7": "this path leads in a circle, or a clone would contain itself",
    "L8": "a variable has exactly one setting, `init` or `reset`",
    "L9": "this setting has no target, or sets it twice",
    "L10": "this path or name is nothing of the kind that is needed here",
    "L11": "this expression has the wrong type",
    "L12": "this value is outside its domain",
    "L13": "a transition sets states alone, and an assertion flows alone",
    "L14": "this event is a part of itself",
}
WORDS = {"variable": "a variable", "unit": "a unit", "parameter": "a parameter", "event": "an event",
         "observer": "an observer", "kept": "a `parameter Real`"}
"""What a member of a unit is, in words."""
KINDS = {"Boolean": "a truth value", "number": "a whole number", "symbol": "a symbol", "real": "a real number"}
"""What an expression is, in words."""
FRAGMENT = {
    "S1": "an event is synchronised: it fires other events",
    "S2": "a unit with transitions has no state",
    "S3": "the guard of an event reads more than its own state",
    "S4": "the action of an event is about more than its own state, or does not give it one value of its domain",
    "S5": "an event moves a state from two modes, or two states",
    "S6": "an event stays in its mode, or a mode is entered twice, or the initial mode is entered",
    "S7": "a part of an expression has more than 64 possible values",
    "S8": "more than 2048 events can happen",
}
SIZES = {
    "model bytes": "the text of a model has at most 4194304 bytes", "script bytes": "a script or a list has at most "
    "1048576 bytes", "nesting": "at most 128 forms are open at one place: brackets, `if`, `not`, `-`, lists, bodies",
    "depth": "units are at most 64 deep", "units": "a model has at most 16384 units", "variables":
    "a model has at most 32768 variables", "events": "a model has at most 16384 events", "tree nodes":
    "the bodies of all units together have at most 2000000 parts", "ways": "an event has at most 256 ways: a "
    "synchronisation has one for each choice of a way for each of its parts", "way parts":
    "all synchronised ways have at most 1000000 parts", "expression nodes":
    "the expressions of the flat system have at most 1000000 parts, each copy counted", "gates":
    "the gate table has at most 2000000 gates: use smaller domains in sums and counts, or ask for an observer of a part of "
    "the plant", "cut lines": "a list has at most 4096 cuts",
}
SCRIPT_COMMANDS = ("fire LABEL", "back", "show", "enabled")
FILES = {"check": 1, "flat": 1, "replay": 2, "fragment": 1, "equations": 1, "cuts": 1, "checkcuts": 2, "modules": 1, "explain": 2,
         "make": 0}
"""How many files each command takes."""
OPTIONS = {"check": "", "flat": "", "replay": "", "fragment": "--drop", "equations": "--observer --value --drop",
           "cuts": "--observer --value --nodes --drop --max-order", "checkcuts": "--observer --value --nodes --drop --max-order",
           "modules": "--observer --value --nodes --drop", "explain": "--observer", "make": None}
"""What each command takes besides --main; None where it takes no option at all."""
NEED_OBSERVER = ("equations", "cuts", "checkcuts", "modules")

GREATEST = ": of truth values the greatest is written with `or`, the least with `and`"
VOTE = ": a vote compares it with a number, as `count(a, b, c) >= 2`"
IN_COUNT = " in a `count`"
ADVICE = (
    # wanted, found, the place ends or begins so, the form of the expression: what to write
    ("number", "Boolean", "%s" % IN_COUNT, None, ": does the bracket of `count` end too late? Two of three is `count(a, b, c) >= 2`"),
    ("Boolean", "number", "", "max", GREATEST),
    ("Boolean", "number", "", "min", GREATEST),
    ("Boolean", "number", "", "count of a comparison", VOTE + ", with the bracket before the comparison"),
    ("Boolean", "number", "", "count", VOTE),
    ("number", "Boolean", "an operand of `max`", None, GREATEST),
    ("number", "Boolean", "an operand of `min`", None, GREATEST),
    ("number", "Boolean", "an operand of `+`", None, ": how many truth values are true is `count(a, b)`"),
    ("Boolean", "number", "the value of", None, ": a comparison makes one of it, as `n > 0`"),
    (None, "real", "", None, ": real numbers are kept in `parameter Real` and not read"),
)
"""What to write where an expression has the wrong type: the first row that fits. A place fits where it begins or ends so."""
