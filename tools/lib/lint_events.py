"""The checks of `lint` on states, events, modes and cuts. Not proved."""
import re

import expressions
import likeness
import questions
import settle
import texts
from lint_block import place_of, shortened
from lint_flows import MOST_STATES, moved

MOST_EXCHANGED = 100_000
"""The most units of a class times cut sets of an observer for which units are exchanged."""


def names_of(sets):
    found = set()
    for one in sets:
        found |= texts.words(one.value)
        for condition, _ in one.conditions:
            found |= texts.words(condition)
    return found


def taken_away(block):
    """Cut sets after which a further event, which is in another cut set, takes the value of the observer away again."""
    for observer, cuts in block.cuts.items():
        path, tried = block.tree.canonical(observer), 0
        used = sorted({texts.event_of(label) for line in cuts for label in line})
        expression = next((o.value for o in block.flat.observers if o.path == path), None)
        for line in cuts if expression is not None and tried < MOST_STATES else ():
            state = after(block, line)
            further = [e for e in used if e not in map(texts.event_of, line)][:MOST_STATES - tried] if state is not None else []
            last = next((e for e in further if is_lost(block, expression, moved(block, state, e))), None)
            tried += len(further)
            if last is not None:
                block.say("taken_away", path, "is %s after {%s}, and no longer after a further event, %s" % (
                    block.value, ", ".join(line), last))
            if last is not None or tried >= MOST_STATES:
                break


def after(block, line):
    """The state after the events of a cut, or None where it is not known."""
    state = settle.first_state(block.flat)
    for label in line:
        state = None if state is None else moved(block, state, texts.event_of(label))
    return state


def is_lost(block, expression, state):
    """Whether the observer has another value in a state than the one that is asked for."""
    if state is None:
        return False
    try:
        value = expressions.evaluate(expression, block.flat.variables, settle.all_values(block.flat, state))
    except (LookupError, ValueError, TypeError, expressions.NotKnown):
        return False
    return expressions.text_of(value) != block.value


def never_changed(block):
    targets = {s.target for w in block.flat.ways for s in w.sets}
    for path, variable in block.flat.variables.items():
        if variable.state and path not in targets:
            block.say("never_changed", path, "is changed by no transition: it is always %s" % variable.value)


def read_nowhere(block):
    read = names_of([a.set for a in block.flat.asserts])
    for observer in block.flat.observers:
        read |= texts.words(observer.value)
    by_others, own = read_by_ways(block.flat)
    for path in block.flat.variables:
        if path not in read | by_others | own:
            block.say("read_nowhere", path, "is read nowhere: no assertion, transition or observer names it")
        elif path not in read | by_others:
            block.say("read_by_itself", path, "is read by its own transitions alone: no assertion, observer or other transition names it")


def read_by_ways(flat):
    """What ways read besides their own state, and their own states that they read."""
    by_others, own = set(), set()
    parts = {part[1] for way in flat.ways for part in way.parts}
    for way in flat.ways:
        named = names_of(way.sets) | texts.words(way.guard or "")
        targets = {one.target for one in way.sets}
        # What an event reads that is a part of others may decide whether they can be fired.
        if way.event in parts or len(targets) != 1:
            by_others |= named
        else:
            by_others |= named - targets
            own |= named & targets
    return by_others, own


def never_fired(block):
    having = {w.event for w in block.flat.ways}
    parts = {p[1] for w in block.flat.ways for p in w.parts}
    hidden = {w.event for w in block.flat.ways if w.hidden}
    known = block.live_events() | {block.tree.canonical(e) for e in block.drop} | hidden
    for path in block.tree.of_kind("event"):
        if path not in having:
            block.say("never_fired", path, "has no transition: it can never be fired")
        elif path in hidden and path not in parts:
            block.say("never_fired", path, "is hidden and part of no other event: it can never be fired")
        elif block.trees is not None and path not in known:
            block.say("never_fired", path, "can never be fired%s: its guard is true in no mode that is reached" % block.without)


def given(block):
    """The values that transitions give each state: those of its tree of modes, else constants; None where unknown."""
    found = {}
    for one in (s for w in block.flat.ways for s in w.sets):
        known = found.setdefault(one.target, set())
        constant = one.value.lstrip("'") in block.domains[one.target]
        found[one.target] = known | {one.value.lstrip("'")} if constant and known is not None else None
    for tree in block.trees or ():
        found[tree.variable] = {e.to_mode for e in tree.edges}
    return found


def added_by_extenders(block, known):
    """The values that other parts give their state of the same name, where their class extends the class of this part."""
    bodies, unit_of, added = block.tree.bodies, {n.path: n.scope.unit for n in block.tree.nodes}, {}
    for path, entered in known.items():
        unit, _, name = path.rpartition(".")
        for base in bodies.bases(unit_of[unit]) if unit in unit_of and entered else ():
            added.setdefault((id(base), name), set()).update(entered)
    return {path: added.get((id(unit_of.get(path.rpartition(".")[0])), path.rpartition(".")[2]), ()) for path in known}


def mode_never_entered(block):
    changed = {s.target for w in block.flat.ways for s in w.sets}
    known = given(block)
    added = added_by_extenders(block, known)
    for path, entered in known.items():
        if entered is None or path not in changed:
            continue
        all_entered = {*entered, block.flat.variables[path].value, *added[path]}
        never = [value for value in block.domains[path] if value not in all_entered]
        if never:
            block.say("mode_never_entered", path, "never has the value %s: no event enters it%s" % (
                " or ".join(shortened(never)), block.without))


def is_constant(block, value):
    return bool(re.fullmatch(r"-?[0-9]+|'?[A-Za-z_][A-Za-z0-9_]*", value)) and value not in block.flat.variables


def outside_domain(block):
    """What is set to, or compared with, a constant that its domain does not have."""
    sets = [(s, "by `%s`" % w.event) for w in block.flat.ways for s in w.sets]
    sets += [(a.set, "at %s" % place_of(a)) for a in block.flat.asserts]
    for one, where in sets:
        value = one.value.lstrip("'")
        if is_constant(block, one.value) and value not in block.domains[one.target]:
            block.say("outside_domain", one.target, "is set to %s, which its domain does not have, %s" % (value, where))
    conditions = [w.guard for w in block.flat.ways if w.guard] + [o.value for o in block.flat.observers]
    conditions += [e for one, _ in sets for e in [one.value] + [c for c, _ in one.conditions]]
    for text in conditions:
        for path, value in re.findall(r"\(([\w.]+) (?:==|!=) ('?-?\w+)\)", text):
            plain = value.lstrip("'")
            if path in block.domains and is_constant(block, value) and plain not in block.domains[path]:
                block.say("outside_domain", path, "is compared with %s, which its domain does not have" % plain)


def in_no_cut(blocks):
    """Events that can be fired in a block and are in no minimal cut set of any observer; said of the first such block. Those that
    are in one of an observer that is not asked for are expected, and have a check of their own."""
    asked = [block for block in blocks if block.observers]
    names = ["%s:%s" % (block.name, o) if len(blocks) > 1 else o for block in asked for o in block.observers]
    used = {(event, block.place(event)) for block in asked for event in block.used_events()}
    for block in asked:
        unused = []
        for path in block.tree.of_kind("event"):
            key = (path, block.place(path))
            if path in block.live_events() and key not in used:
                used.add(key)
                unused.append(path)
        elsewhere = in_other_cuts(block, unused)
        for path in unused:
            rule, more = ("in_other_cut", ", but in one of %s" % elsewhere[path]) if path in elsewhere else ("in_no_cut", "")
            block.say(rule, path, "is in no minimal cut set of %s%s%s" % (" or of ".join(names), block.without, more))


def in_other_cuts(block, events):
    """For each of these events that is in a cut set of another Boolean observer the first of these."""
    found, left = {}, set(events)
    asked = {block.tree.canonical(observer) for observer in block.observers}
    for observer in questions.boolean_observers(block.source)[0]:
        if left and observer not in asked:
            for event in left & block.events_of(observer):
                found[event] = observer
            left -= set(found)
    return found


def unlike_others(block):
    """A unit that is unlike all others of its class in a list of cut sets: `exchange` looks at all of them."""
    classes = likeness.classes(block.tree)
    for observer, listed in block.cuts.items():
        cuts = likeness.Cuts(listed)
        for name, paths in classes.items():
            paths = [path for path in paths if cuts.of(path)]
            odd = likeness.odd_one(cuts, paths) if len(paths) * len(cuts.cuts) <= MOST_EXCHANGED else None
            if odd:
                block.say_unit("unlike_others", odd.first, "is unlike the other units of its class, %s: with %s in its place %d of %d cut sets of %s have "
                               "no twin, as {%s}; tools/exchange says more" % (name, odd.second, odd.lost, odd.concerned, observer, ", ".join(sorted(odd.cut))))


CHECKS = (taken_away, never_changed, read_nowhere, never_fired, mode_never_entered, outside_domain, unlike_others)
