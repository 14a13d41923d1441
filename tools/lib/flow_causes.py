"""The causes of faults of flows, in a run and in a listing. Not proved: what is said here is read from `flat` and from the
text of the model.
"""
import re

import expressions
import settle
import texts
from asked import Note, quoted


def flow_fault(asked, text, fault, state=None):
    """A note on a fault of flows: `flow P has two values`, `flow P is outside its domain`, `assignment K .. not hold`.
    Where the state is known in which they have no values, the cause is that in this state."""
    found = re.fullmatch(r"assignment ([0-9]+) at ([0-9]+):([0-9]+) does not hold", fault)
    if found:
        number, line, column = map(int, found.groups())
        return Note(asked.model, line, column, text, not_held(asked.flat, number, state))
    path = re.fullmatch(r"flow (\S+) (?:has two values|is outside its domain)", fault).group(1)
    if fault.endswith("two values"):
        return asked.note(path, text, two_values(asked, path, state))
    at = " or ".join(places(asked.flat).get(path, []))
    return asked.note(path, text, "its domain is %s, and an assignment at %s gives it another value" % (
        asked.flat.variables[path].domain, at))


def state_after(flat, labels):
    """The state after these events, or None where it cannot be found."""
    try:
        state = settle.first_state(flat)
        for label in labels:
            state = settle.after(flat, state, label)
        return state
    except (LookupError, ValueError, TypeError, StopIteration, expressions.NotKnown):
        return None


def places(flat):
    """The places of the assignments of each flow."""
    found = {}
    for one in flat.asserts:
        found.setdefault(one.set.target, []).append("%d:%d" % (one.line, one.column))
    return found


def two_values(asked, path, state):
    flat = asked.flat
    found = settle.facts(flat, state) if state is not None else {}
    if len(found.get(path, ())) > 1:
        first, second = (given_by(found, path, value) for value in list(found[path])[:2])
        ones = [settle.source(found, path, value)[0] for value in list(found[path])[:2]]
        return "in this state %s, and %s%s" % (first, second, written_again(asked, *ones) or misspelt_target(flat, path))
    at = places(flat)
    before = sorted(p for p in before_all(flat, [a.set for a in flat.asserts if a.set.target == path]) - {path}
                    if len(at.get(p, ())) > 1)
    if not before:
        return "it is set by the assignments at %s, %s different values" % (
            " and ".join(at[path]), "which give" if len(at[path]) == 2 else "and two of them give")
    said = ["`%s` at %s" % (p, " and ".join(at[p])) for p in [path] + before[:3]]
    return "it, or a flow on which it depends, is set to two values: the assignments are those of %s" % ", of ".join(said)


def written_again(asked, one, other):
    """Words for where one of two assignments is in a class that the body of the other one extends."""
    bodies = asked.tree.bodies
    first, second = (body_with(bodies, (it.line, it.column)) for it in (one, other))
    for base, body in ((first, second), (second, first)):
        if base is not None and body is not None and any(it is base for it in bodies.bases(body)):
            return (". `%s` extends `%s` and has its assertions too: one that is written again does not replace the first. Keep one of "
                    "the two" % (body.name.text, base.name.text))
    return ""


def body_with(bodies, place):
    """The class or block of the text whose assertion has this place."""
    return next((unit for unit in bodies.units.values() for it in unit.members if it.kind == "assertion" and
                 (it.first.line, it.first.column) <= place <= (it.last.line, it.last.column)), None)


def misspelt_target(flat, path):
    """A flow of the same part that no assertion sets, where a flow of the part is set twice."""
    unit, at = path.rpartition(".")[0], places(flat)
    unset = [p for p, v in flat.variables.items() if not v.state and p not in at and unit and p.rpartition(".")[0] == unit]
    sets = [a.set for a in flat.asserts if a.set.target == path]
    if len(sets) != 2 or not unset or any(s.conditions for s in sets):
        return ""
    return ". No assertion sets %s: is that the target that one of them should have?" % quoted(unset[:3])


def given_by(found, path, value):
    """The assignment from which a flow has a value, in words."""
    one, (last, of) = found[path][value], settle.source(found, path, value)
    passed = "" if of == path else " from `%s`, set at %d:%d" % (of, last.line, last.column)
    return "the assignment at %d:%d gives %s%s" % (one.line, one.column, expressions.text_of(value), passed)


def before_all(flat, sets):
    """All variables on which these assignments depend."""
    assigns = {}
    for one in flat.asserts:
        assigns.setdefault(one.set.target, []).append(one.set)
    todo, seen = list(sets), set()
    while todo:
        one = todo.pop()
        names = set(texts.words(one.value)).union(*(texts.words(c) for c, _ in one.conditions))
        for name in names - seen:
            seen.add(name)
            todo += assigns.get(name, [])
    return seen


def covered(sets):
    """Whether one of the assignments is for where a condition holds and one for where it does not."""
    alone = {s.conditions[0] for s in sets if len(s.conditions) == 1}
    return any((condition, not wanted) in alone for condition, wanted in alone)


class Waiting:
    """The flows that have no value but their reset, of those on which an assignment depends through such flows. Where the state
    is not known, these are all on which it depends."""

    def __init__(self, flat, number, state):
        self.flat, self.state, self.of = flat, state, {}
        for one in flat.asserts:
            self.of.setdefault(one.set.target, []).append(one.set)
        self.one = next(a.set for a in flat.asserts if a.number == number)
        self.found = settle.facts(flat, state) if state is not None else {}
        self.known = {**(state or {}), **{p: next(iter(v)) for p, v in self.found.items()}}
        self.direct = self.named([self.one])
        self.all = self.reached(self.direct)
        self.is_in_loop = self.one.target not in self.known and self.one.target in self.all

    def is_flow(self, name):
        return name in self.flat.variables and not self.flat.variables[name].state

    def named(self, sets):
        """The flows without a value that these assignments name, in the order of the model."""
        names = set().union(*(settle.names_of(one) for one in sets)) if sets else set()
        return [p for p in self.flat.variables if p in names and self.is_flow(p) and p not in self.known]

    def live(self, path):
        """The assignments of a flow that may give it a value in this state."""
        sets = self.of.get(path, [])
        return sets if self.state is None else [s for s in sets if settle.is_on(s, self.flat.variables, self.known) is not False]

    def reached(self, paths):
        seen, todo = set(paths), list(paths)
        while todo:
            for name in set().union(*(settle.names_of(one) for one in self.live(todo.pop()))):
                if self.is_flow(name) and name not in self.known and name not in seen:
                    seen.add(name)
                    todo.append(name)
        return [p for p in self.flat.variables if p in seen]

    def unset(self):
        return [p for p in self.all if p not in self.of]

    def partly(self):
        """Those that are assigned under conditions alone, of which none holds here, and that are in no loop or tie."""
        return [p for p in self.all if p in self.of and all(s.conditions for s in self.of[p]) and not covered(self.of[p])
                and not (self.state is not None and self.live(p)) and p not in before_all(self.flat, self.of[p])]

    def loop(self):
        """The flows that depend on the target and it on them."""
        return [p for p in self.all if self.one.target in self.reached([p])]

    def reset(self, path):
        return self.flat.variables[path].value


def not_held(flat, number, state=None):
    """Why an assignment does not hold, in a state or, where it is not known, in some state."""
    waiting = Waiting(flat, number, state)
    target = waiting.one.target
    if target in waiting.found:
        return set_elsewhere(waiting)
    unset = waiting.unset()
    if unset:
        shown = quoted(unset[:3]) + (" and %d more" % (len(unset) - 3) if len(unset) > 3 else "")
        return ("it depends on %s, which no assertion sets: a reset value is there in the end alone, and gives no assignment "
                "its value on the way" % shown)
    partly = waiting.partly()
    if partly:
        return ("it depends on `%s`, which is set under conditions alone, at %s: where none of them holds, `%s` has no value but "
                "its reset, in the end: set it there too, as by `else`" % (
                    partly[0], " and ".join(places(flat)[partly[0]]), partly[0]))
    if state is None:
        return ("where no value follows for `%s`, it has its reset value %s, and with that its assignment gives another one: look "
                "for a loop of flows, and for `not`, `==` or `if` on a flow that nothing feeds" % (target, waiting.reset(target)))
    return in_loop(waiting) if waiting.is_in_loop else reads_dead(waiting)


def set_elsewhere(waiting):
    """The cause where the target has its value from another assignment."""
    (value, by), *_ = waiting.found[waiting.one.target].items()
    dead = waiting.direct
    said = "`%s` is %s by the assignment at %d:%d, and %s, which this one reads, %s no value in this state but %s reset" % (
        waiting.one.target, expressions.text_of(value), by.line, by.column, quoted(dead[:3]), "has" if len(dead) == 1 else "have",
        "its" if len(dead) == 1 else "their")
    if dead == [waiting.one.value] and dead[0] in waiting.unset():
        return ("%s, %s: no assertion sets it. Is the wire the wrong way round? The side that receives is left: `%s := %s;`. Only if both "
                "are one and the same, tie them: `%s :=: %s`" % (
                    said, waiting.reset(dead[0]), dead[0], waiting.one.target, waiting.one.target, dead[0]))
    if dead == [waiting.one.value]:
        return "%s, %s. If both are one and the same, tie them: `%s :=: %s`" % (
            said, waiting.reset(dead[0]), waiting.one.target, dead[0])
    return said


def in_loop(waiting):
    """The cause where the target depends on itself, and nothing gives the loop a value."""
    target, loop = waiting.one.target, waiting.loop()
    said = "no value follows for `%s` in this state, so it has its reset value %s, and with that its assignment gives another " \
           "one" % (target, waiting.reset(target))
    other = next((p for p in loop if waiting.reset(p) != waiting.reset(target)), None)
    if other is not None:
        return "%s: it is in a loop with `%s`, which has the reset %s: give the flows of one loop one reset value" % (
            said, other, waiting.reset(other))
    named = [waiting.one.value, *(c for c, _ in waiting.one.conditions)]
    demand = (". A demand reads what comes before the loop, as `demand := not grid.ok;`, and not what it brings about; an alarm is an "
              "observer" if any("(not " in text for text in named) else "")
    return ("%s: `%s` depends on itself. In a loop write `and`, `or`, `:=:` and `if CONDITION then` with conditions on states, and no "
            "`not`, comparison, `count`, sum or `else` with its flows%s" % (said, target, demand))


def reads_dead(waiting):
    """The cause where what the assignment reads has no value but its reset, as behind a ring that nothing feeds."""
    target, dead = waiting.one.target, waiting.direct
    said = "%s %s no value in this state but %s reset, in the end, when `%s` has its own, %s, already" % (
        quoted(dead[:3]), "has" if len(dead) == 1 else "have", "its" if len(dead) == 1 else "their", target,
        waiting.reset(target))
    others = [p for p in dead if waiting.reset(p) != waiting.reset(target)]
    if others and not re.search(r"\(not |==|!=|[<>]|\b(count|if|switch)\b", waiting.one.value):
        return ("%s: give both one reset, and so on to the last flow that reads them: `false` for what is supplied; `true` for a loop that "
                "keeps itself running, and for all that reads it" % said)
    if any(target in settle.names_of(a.set) for a in waiting.flat.asserts):
        spare = ". If it is the demand of a spare, the spare needs none: `%s := true;`" % target if "(not " in waiting.one.value else ""
        return "%s: let the assertions that read `%s` do without it, or without `not` and comparisons%s" % (said, target, spare)
    return "%s: read %s with `not` in an observer alone, or give `%s` the reset that it then has" % (
        said, "it" if len(dead) == 1 else "them", target)
