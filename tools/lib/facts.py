"""Which values may follow for each flow from the states, before the flows that nothing gives a value take their reset.

The sets are never too small: what is in none of them follows at no values of the states. They may be too large, since each
expression is looked at by itself, and a state may have each value of its domain. Not proved.
"""
import expressions
import texts
from expressions import ANY, MOST, may, union


def of(flat):
    """For each variable the values that may follow: of a state its domain, of a flow by its assignments."""
    changed = {s.target for w in flat.ways for s in w.sets}
    known = {}
    for path, variable in flat.variables.items():
        domain = texts.values_of(variable.domain) if path in changed else [variable.value]
        known[path] = {expressions.value_of(v) for v in domain} if variable.state else set()
    readers, todo = {}, list(flat.asserts)
    for one in flat.asserts:
        for name in names_of(one.set):
            readers.setdefault(name, []).append(one)
    while todo:
        one = todo.pop()
        now = union(known[one.set.target], given(one.set, flat, known))
        now = ANY if now is not ANY and len(now) > MOST else now
        if now != known[one.set.target]:
            known[one.set.target] = now
            todo += readers.get(one.set.target, [])
    return known


def names_of(one):
    """What an assignment names in its value and its conditions."""
    return texts.words(one.value).union(*(texts.words(c) for c, _ in one.conditions))


def loops(flat):
    """The loops of flows: lists of flows of which each depends on each, and flows that depend on themselves."""
    uses = {p: set() for p, v in flat.variables.items() if not v.state}
    for one in flat.asserts:
        uses[one.set.target] |= {n for n in names_of(one.set) if n in uses}
    number, least, on, stack, found = {}, {}, set(), [], []
    for root in uses:
        walk = [] if root in number else [(root, iter(sorted(uses[root])))]
        while walk:
            path, rest = walk[-1]
            if path not in number:
                number[path] = least[path] = len(number)
                stack.append(path)
                on.add(path)
            further = next(rest, None)
            if further is None:
                walk.pop()
                if walk:
                    least[walk[-1][0]] = min(least[walk[-1][0]], least[path])
                if least[path] == number[path]:
                    one = stack[stack.index(path):]
                    del stack[-len(one):]
                    on -= set(one)
                    if len(one) > 1 or path in uses[path]:
                        members = set(one)
                        found.append([p for p in uses if p in members])
            elif further not in number:
                walk.append((further, iter(sorted(uses[further]))))
            elif further in on:
                least[path] = min(least[path], number[further])
    return found


def given(one, flat, known):
    """What an assignment may give."""
    if not all(may(expressions.values(c, flat.variables, known), wanted) for c, wanted in one.conditions):
        return expressions.NONE
    return expressions.values(one.value, flat.variables, known)
