"""The values that flows get in one state of a model: the facts, as they follow from the states, and the state after some
events. Read from the flat system, and used to say causes. Not proved.
"""
import expressions
from expressions import value
from facts import names_of


def is_on(one, variables, known):
    """Whether the conditions of an assignment hold; None where this does not follow."""
    found = [value(c, variables, known) for c, _ in one.conditions]
    if any(v is not None and v != wanted for v, (_, wanted) in zip(found, one.conditions)):
        return False
    return None if None in found else True


def facts(flat, state):
    """For each flow that gets a value in a state: its values, each with the first assignment that gives it."""
    found, known, readers = {}, dict(state), {}
    for one in flat.asserts:
        for name in names_of(one.set):
            readers.setdefault(name, []).append(one)
    todo = list(reversed(flat.asserts))
    while todo:
        one = todo.pop()
        if not is_on(one.set, flat.variables, known):
            continue
        # What passes on another flow passes on each of its values.
        given = list(found.get(one.set.value, ())) or [value(one.set.value, flat.variables, known)]
        for new in given:
            if new is not None and new not in found.setdefault(one.set.target, {}):
                found[one.set.target][new] = one
                known.setdefault(one.set.target, new)
                todo += reversed(readers.get(one.set.target, []))
    return {p: v for p, v in found.items() if v}


def source(found, path, given):
    """The assignment from which a value of a flow comes, and the flow that it sets: what only passes it on is followed."""
    seen = set()
    while True:
        one = found[path][given]
        seen.add(path)
        if one.set.value in seen or given not in found.get(one.set.value, {}):
            return one, path
        path = one.set.value


def first_state(flat):
    return {p: expressions.value_of(v.value) for p, v in flat.variables.items() if v.state}


def all_values(flat, state):
    """The state with the value of each flow, where there is no fault."""
    found = facts(flat, state)
    flows = {p: next(iter(found[p])) if p in found else expressions.value_of(v.value)
             for p, v in flat.variables.items() if not v.state}
    return {**state, **flows}


def sets_of(flat, way, known):
    """What a way assigns, or None where it cannot be fired."""
    if way.guard is None:
        parts = [(p, next(w for w in flat.ways if w.event == p[1] and w.number == p[2])) for p in way.parts]
        given = [sets_of(flat, inner, known) for _, inner in parts]
        return {k: v for one in given if one for k, v in one.items()}
    if not expressions.evaluate(way.guard, flat.variables, known):
        return None
    return {one.target: expressions.evaluate(one.value, flat.variables, known) for one in way.sets
            if all(expressions.evaluate(c, flat.variables, known) == wanted for c, wanted in one.conditions)}


def after(flat, state, label):
    """The state after an event."""
    event, _, number = label.partition("#")
    way = next(w for w in flat.ways if w.event == event and w.number == int(number or 1))
    return {**state, **(sets_of(flat, way, all_values(flat, state)) or {})}
