"""Expressions as trees of tuples, with paths from the main block. Not proved.

A tree is ("value", V), ("variable", PATH), ("switch", ((TEST, TREE)..), DEFAULT), ("if", TEST, A, B), or an operator
with its operands: `not`, `and`, `or`, a comparison, `+`, `-`, `*`, `negative`, `min`, `max`, `count`. V is a bool, an int or
a str (a symbol).
"""
import operator

LEAST, LARGEST = -2**63, 2**63 - 1
TRUE, FALSE = ("value", True), ("value", False)
COMPARE = {"<": operator.lt, "<=": operator.le, ">": operator.gt, ">=": operator.ge}
ARITHMETIC = {"+": operator.add, "-": operator.sub, "*": operator.mul}


def clamped(number):
    return max(LEAST, min(LARGEST, number))


def parts(tree):
    """The trees directly below one."""
    form = tree[0]
    if form in ("value", "variable"):
        return ()
    if form == "switch":
        return (*[part for case in tree[1] for part in case], tree[2])
    return tree[1:]


def with_parts(tree, new):
    """The tree with others directly below it."""
    if tree[0] in ("value", "variable"):
        return tree
    if tree[0] == "switch":
        return ("switch", tuple(zip(new[:-1:2], new[1:-1:2])), new[-1])
    return (tree[0], *new)


def names(tree):
    """The paths of the variables that a tree names."""
    if tree[0] == "variable":
        return {tree[1]}
    return set().union(*map(names, parts(tree)))


def replaced(tree, trees):
    """The tree with trees in place of some variables."""
    if tree[0] == "variable":
        return trees.get(tree[1], tree)
    return with_parts(tree, [replaced(part, trees) for part in parts(tree)])


def _lazy(tree, known):
    """The value of a `switch`, an `if`, an `and` or an `or`, of which not every operand need be known."""
    form = tree[0]
    if form in ("and", "or"):
        found = [value(part, known) for part in tree[1:]]
        decided = form == "or"
        return decided if decided in [v for v in found if v is not None] else None if None in found else not decided
    cases = tree[1] if form == "switch" else ((tree[1], tree[2]),)
    for test, then in cases:
        holds = value(test, known)
        if holds is None or holds:
            return None if holds is None else value(then, known)
    return value(tree[2] if form == "switch" else tree[3], known)


def value(tree, known):
    """The value of a tree where `known` has those of variables, or None where it does not follow from them."""
    form = tree[0]
    if form == "value":
        return tree[1]
    if form == "variable":
        return known.get(tree[1])
    if form in ("switch", "if", "and", "or"):
        return _lazy(tree, known)
    found = [value(part, known) for part in tree[1:]]
    return None if None in found else _strict(form, found)


def _strict(form, found):
    if form == "not":
        return not found[0]
    if form == "negative":
        return clamped(-found[0])
    if form in ("min", "max"):
        return (min if form == "min" else max)(found)
    if form == "count":
        return sum(found)
    left, right = found
    if form in ("==", "!="):
        return (left == right) == (form == "==")
    return COMPARE[form](left, right) if form in COMPARE else clamped(ARITHMETIC[form](left, right))


def is_truth(tree, system):
    """Whether a tree has a truth value."""
    form = tree[0]
    if form == "variable":
        return system.variables[tree[1]].domain.name == "Boolean"
    if form in ("if", "switch"):
        return is_truth(tree[2], system)
    return isinstance(tree[1], bool) if form == "value" else form in ("not", "and", "or", "==", "!=", *COMPARE)


def any_of(trees):
    """The `or` of trees, short where it can be."""
    trees = list(dict.fromkeys(tree for tree in trees if tree != FALSE))
    if not trees or TRUE in trees:
        return ("value", bool(trees))
    return _joined("or", trees)


def all_of(trees):
    """The `and` of trees, short where it can be."""
    trees = list(dict.fromkeys(tree for tree in trees if tree != TRUE))
    if FALSE in trees:
        return FALSE
    return TRUE if not trees else _joined("and", trees)


def _joined(form, trees):
    """The trees joined by one sign; those that are so joined already are taken apart."""
    found = []
    for tree in trees:
        found += tree[1:] if tree[0] == form else (tree,)
    found = list(dict.fromkeys(found))
    return found[0] if len(found) == 1 else (form, *found)


def no(tree):
    return ("value", not tree[1]) if tree[0] == "value" else tree[1] if tree[0] == "not" else ("not", tree)


def word(it):
    """A value as texts write it."""
    return ("true" if it else "false") if isinstance(it, bool) else str(it)


def text(tree, path=lambda it: it):
    """The tree as the text of an expression; `path` writes the path of a variable."""
    form = tree[0]
    if form == "value":
        negative = isinstance(tree[1], int) and tree[1] < 0
        return "(- %d)" % -tree[1] if negative else word(tree[1])
    if form == "variable":
        return path(tree[1])
    inner = [text(part, path) for part in parts(tree)]
    if form == "switch":
        cases = " ".join("case %s: %s" % case for case in zip(inner[:-1:2], inner[1:-1:2]))
        return "switch { %s default: %s }" % (cases, inner[-1])
    if form == "if":
        return "(if %s then %s else %s)" % tuple(inner)
    if form in ("min", "max", "count"):
        return "%s(%s)" % (form, ", ".join(inner))
    if form in ("not", "negative"):
        return "(%s %s)" % ("not" if form == "not" else "-", inner[0])
    return "(%s)" % (" %s " % form).join(inner)


def bare(written):
    """The text of an expression without the brackets around the whole."""
    if not (written.startswith("(") and written.endswith(")")):
        return written
    depth = 0
    for at, sign in enumerate(written):
        depth += (sign == "(") - (sign == ")")
        if not depth and at < len(written) - 1:
            return written
    return written[1:-1]
