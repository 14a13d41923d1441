"""The checks of `lint` on flows: how they are set, and their loops. Not proved."""
import expressions
import facts
import settle
from lint_block import place_of, places_of, shortened

MOST_STATES = 300


def unset_flow(block):
    targets = {a.set.target for a in block.flat.asserts}
    for path, variable in block.flat.variables.items():
        if not variable.state and path not in targets:
            block.say("unset_flow", path, "is set by no assertion: it always has its reset value %s" % variable.value)


def is_tie(first, second):
    """Whether two neighbouring assignments are the two of one `:=:`."""
    return (first.number + 1 == second.number and first.set.target == second.set.value
            and second.set.target == first.set.value)


def set_twice(block):
    always, asserts = {}, block.flat.asserts
    for number, one in enumerate(asserts):
        pairs = asserts[max(0, number - 1):number + 2]
        tied = any(is_tie(a, b) for a, b in zip(pairs, pairs[1:]))
        if not one.set.conditions and not tied:
            always.setdefault(one.set.target, []).append(one)
    for path, ones in always.items():
        if len(ones) > 1:
            block.say("set_twice", path, "is set without conditions at %s" % places_of(ones))


def reads_itself(block):
    """Flows that their own assertion reads."""
    for one in block.flat.asserts:
        if one.set.target in facts.names_of(one.set):
            block.say("reads_itself", one.set.target, "is read by the assertion that sets it, at %s" % place_of(one))


def loop_not_started(block):
    """Loops of flows that have no value but their reset."""
    known, variables = facts.of(block.flat), block.flat.variables
    for loop in facts.loops(block.flat):
        reset = {p: expressions.value_of(variables[p].value) for p in loop}
        if all(known[p] is not expressions.ANY and known[p] <= {reset[p]} for p in loop):
            others = "" if len(loop) == 1 else ", as %s" % ", ".join(shortened(loop[1:]))
            block.say("loop_not_started", loop[0], "is in a loop that nothing starts: it can have no other value than its reset, "
                      "%s%s" % (variables[loop[0]].value, others))


def reset_only(block):
    """Flows that get no value but their reset, by assignments under conditions."""
    known, sets = facts.of(block.flat), {}
    for one in block.flat.asserts:
        sets.setdefault(one.set.target, []).append(one)
    for path, ones in sets.items():
        variable = block.flat.variables[path]
        reset = expressions.value_of(variable.value)
        if (all(one.set.conditions and expressions.value_of(one.set.value) == reset for one in ones)
                and known[path] is not expressions.ANY and known[path] <= {reset}):
            block.say("reset_only", path, "is only ever given its reset value, %s, at %s: it always has it" % (
                variable.value, places_of(ones)))


def one_source(block):
    """Two inputs of one part that one variable sets, where no other part of the class is wired so."""
    found, sources = {}, {}
    for one in block.flat.asserts:
        unit = one.set.target.rpartition(".")[0]
        if unit and not one.set.conditions and one.set.value in block.flat.variables and not block.is_written_in(unit, one):
            found.setdefault((unit, one.set.value), {}).setdefault(one.set.target, one)
            sources[one.set.target] = one.set.value
    class_of = {node.path: id(node.scope.unit) for node in block.tree.nodes}
    for (unit, value), targets in found.items():
        names = sorted(target[len(unit) + 1:] for target in targets)
        alike = [u for u in class_of if u != unit and class_of[u] == class_of.get(unit)]
        if len(names) > 1 and not any(is_wired_so(sources, u, names) for u in alike):
            ones = sorted(targets.values(), key=lambda one: (one.line, one.column))
            block.say("one_source", ones[-1].set.target, "is set from %s, as %s of the same part is, at %s" % (
                value, " and ".join(one.set.target for one in ones[:-1]), places_of(ones)))


def is_wired_so(sources, unit, names):
    """Whether these inputs of a unit have one source."""
    found = {sources.get("%s.%s" % (unit, name)) for name in names}
    return len(found) == 1 and found != {None}


def some_states(block):
    """The first state, then those after one and after two failures, as far as they are not too many: (events, state)."""
    first, live = settle.first_state(block.flat), block.live_events()
    labels = list(dict.fromkeys(w.event for w in block.flat.ways if not w.hidden and w.guard is not None and w.event in live))
    pairs = [[one, other] for number, one in enumerate(labels) for other in labels[number + 1:]]
    yield [], first
    for events in ([[one] for one in labels] + pairs)[:MOST_STATES - 1]:
        state = first
        for event in events:
            state = None if state is None else moved(block, state, event)
        if state is not None:
            yield events, state


def moved(block, state, event):
    """The state after an event, or None where it cannot be fired or its effect is not known."""
    ways = [w for w in block.flat.ways if w.event == event]
    if len(ways) != 1:
        return None
    try:
        sets = settle.sets_of(block.flat, ways[0], settle.all_values(block.flat, state))
    except (LookupError, ValueError, TypeError, expressions.NotKnown):
        return None
    return None if sets is None else {**state, **sets}


def loop_keeps_itself(block):
    """Loops of flows with the reset `true` that are true in a state in which nothing gives their flows a value."""
    loops = [loop for loop in facts.loops(block.flat)
             if len(loop) > 1 and all(block.flat.variables[p].value == "true" for p in loop)]
    for events, state in some_states(block) if loops else ():
        found = settle.facts(block.flat, state)
        for loop in list(loops):
            bare = [p for p in loop if p not in found]
            if bare:
                loops.remove(loop)
                others = shortened(bare[1:])
                block.say("loop_keeps_itself", bare[0], "is in a loop with the reset true, which nothing feeds %s: it is true by its "
                          "reset alone%s" % ("at the start" if not events else "after {%s}" % ", ".join(events),
                                             ", as %s" % ", ".join(others) if others else ""))


def closed_over_itself(block):
    """Flows that an assertion of another unit sets from a flow of their own unit that depends on them there."""
    own = {}
    for one in block.flat.asserts:
        own.setdefault(one.set.target, set()).update(names_of_unit(one))
    for one in block.flat.asserts:
        unit = one.set.target.rpartition(".")[0]
        names = [name for name in sorted(names_of_unit(one)) if unit and name != one.set.target]
        for name in names if names and not block.is_written_in(unit, one) else ():
            if one.set.target in reached_from(name, own):
                block.say("closed_over_itself", one.set.target, "is set at %s from %s of its own unit, which depends on it" % (
                    place_of(one), name))


def names_of_unit(one):
    """What an assignment names of the unit of its target."""
    unit = one.set.target.rpartition(".")[0]
    return {name for name in facts.names_of(one.set) if name.rpartition(".")[0] == unit}


def reached_from(name, uses):
    seen, todo = {name}, [name]
    while todo:
        further = uses.get(todo.pop(), set()) - seen
        seen |= further
        todo += further
    return seen


def tied_twice(block):
    """Pairs of flows that two ties join under the same conditions."""
    at, last = {}, None
    for first, second in zip(block.flat.asserts, block.flat.asserts[1:]):
        if first is not last and is_tie(first, second):
            last = second
            pair = (tuple(sorted((first.set.target, first.set.value))), tuple(sorted(map(str, first.set.conditions))))
            at.setdefault(pair, []).append(first)
    for (pair, _), found in at.items():
        if len(found) > 1:
            block.say("tied_twice", pair[0], "is tied to %s twice under the same conditions, at %s" % (pair[1], places_of(found)))


CHECKS = (unset_flow, set_twice, reset_only, one_source, reads_itself, loop_not_started, closed_over_itself, loop_keeps_itself,
          tied_twice)
