"""The causes of what is refused as outside of the static fragment, S1 to S8. Not proved: what is said here is read from
`flat` and from the text of the model.
"""
import expressions
import texts
from asked import MOST_NAMED, quoted
from refusals import FRAGMENT


class Modes:
    """The mode variables and live edges of a flat system without the dropped events."""

    def __init__(self, asked):
        self.flat = asked.flat
        dropped = {asked.tree.canonical(e) for e in asked.drop}
        self.ways = [w for w in self.flat.ways if w.guard is not None and w.event not in dropped]
        self.states = {}
        for variable in self.flat.variables.values():
            if variable.state:
                self.states.setdefault(variable.path.rpartition(".")[0], []).append(variable.path)
        self.of = {}
        for way in self.ways:
            self.of.setdefault(self.variable(way), []).append(way)

    @staticmethod
    def names(way):
        found = set(texts.words(way.guard))
        for one in way.sets:
            found |= {one.target} | texts.words(one.value)
            for condition, _ in one.conditions:
                found |= texts.words(condition)
        return found

    def variable(self, way):
        states, names = self.states.get(way.event.rpartition(".")[0], []), self.names(way)
        return next((s for s in states if s in names), states[0] if states else None)

    def others(self, way):
        """The variables besides its mode variable that the guard names, and that the action names."""
        own, known = self.variable(way), self.flat.variables
        guard = {n for n in texts.words(way.guard) if n in known and n != own}
        action = {n for n in self.names(way._replace(guard="true")) if n in known and n != own}
        return sorted(guard), sorted(action)

    def given(self, way, variable, mode):
        """The values that a way gives its mode variable at a mode where its guard is true; None where it is not."""
        known = {variable: expressions.value_of(mode)}
        if not expressions.evaluate(way.guard, self.flat.variables, known):
            return None
        found = []
        for one in way.sets:
            if all(expressions.evaluate(c, self.flat.variables, known) == wanted for c, wanted in one.conditions):
                found.append(expressions.text_of(expressions.evaluate(one.value, self.flat.variables, known)))
        return sorted(set(found))

    def edges(self, variable):
        """The live edges of a mode variable: (way, mode, values given)."""
        first = self.flat.variables[variable].value
        domain = texts.values_of(self.flat.variables[variable].domain)
        reached, todo, found = {first}, [first], []
        while todo:
            mode = todo.pop(0)
            for way in self.of.get(variable, ()):
                if way.hidden:
                    continue
                given = self.given(way, variable, mode)
                if given is None:
                    continue
                found.append((way, mode, given))
                if len(given) == 1 and given[0] in domain and given[0] not in reached:
                    reached.add(given[0])
                    todo.append(given[0])
        return found


def outside(asked, rule, path):
    text = "outside: %s at %s: %s" % (rule, path, FRAGMENT[rule])
    find = {"S1": _synchronised, "S2": _without_state, "S3": _guard, "S4": _action, "S5": _two_edges, "S6": _entered,
            "S7": _wide, "S8": _many}[rule]
    return find(asked, text, path)


def _synchronised(asked, text, path):
    parts = next(w.parts for w in asked.flat.ways if w.event == path and w.guard is None)
    names = list(dict.fromkeys(event for _, event, _ in parts))
    drop = "" if path not in asked.drop else "; to drop the event does not help"
    if len(names) == 1:
        return asked.at_transition(path, text, "`%s` fires another event, `%s`%s" % (path, names[0], drop))
    return asked.at_transition(path, text, "`%s` fires %s together, so their units do not fail independently%s" % (
        path, quoted(names), drop))


def _without_state(asked, text, path):
    for way in asked.flat.ways:
        moved = list(dict.fromkeys(one.target for one in way.sets))
        if (way.event.rpartition(".")[0] or "main") == path and len({m.rpartition(".")[0] for m in moved}) > 1:
            return asked.at_transition(way.event, text, "it moves states of several units, %s: such a common cause is a unit with a "
                                       "state of its own, which the others read through flows" % quoted(moved[:4]))
        if (way.event.rpartition(".")[0] or "main") == path and way.sets:
            return asked.at_transition(way.event, text, "its unit has no state of its own, and it moves `%s`: write the event in "
                                       "the unit of that state" % way.sets[0].target)
    return asked.note(path, text, "this unit has transitions and no variable with `init`, so nothing can change in it")


def _guard(asked, text, path):
    modes = Modes(asked)
    for way in modes.ways:
        others = modes.others(way)[0]
        if modes.variable(way) == path and others:
            return asked.at_transition(way.event, text, "its guard names %s besides `%s`: when it can happen depends on more "
                                       "than its own state" % (quoted(others), path))
    return asked.note(path, text, None)


def _action(asked, text, path):
    modes = Modes(asked)
    for way in modes.ways:
        others = modes.others(way)[1]
        if modes.variable(way) == path and others:
            units = {one.target.rpartition(".")[0] for one in way.sets}
            common = ""
            if len(units) > 1:
                common = by_a_flow(asked, path, [o for o in others if not o.rpartition(".")[0] == path.rpartition(".")[0]])
            return asked.at_transition(way.event, text, "its action names %s besides `%s`, and an event is about one state%s" % (
                quoted(others), path, common))
    for way, mode, given in modes.edges(path):
        if len(given) != 1:
            what = "nothing" if not given else "the values " + " and ".join(given)
            return asked.at_transition(way.event, text, "where `%s` is %s it can happen, and gives it %s" % (path, mode, what))
        if given[0] not in texts.values_of(asked.flat.variables[path].domain):
            return asked.at_transition(way.event, text, "where `%s` is %s it gives it %s, which is outside its domain" % (
                path, mode, given[0]))
    return asked.note(path, text, None)


def by_a_flow(asked, path, others):
    """How a common cause is written, whose own state this is, in place of an action on the states of others."""
    first, reader = asked.flat.variables[path], others[0].rpartition(".")[0] if others else ""
    absent = path if first.value == "true" else "not %s" % path if first.value == "false" else "%s == %s" % (path, first.value)
    wire = "%sspared := %s;" % (reader + "." if reader else "", absent)
    return (": what breaks several units is a common cause. Let the action change `%s` alone, and let the others read it by a flow that "
            "the main block sets, as `%s`" % (path, wire))


def _two_edges(asked, text, path):
    modes, found = Modes(asked), {}
    for variable in [v for v in asked.flat.variables if v in modes.of]:
        for way, mode, given in modes.edges(variable):
            found.setdefault(way.event, []).append((variable, mode, given[0] if given else "?"))
    for event, moves in found.items():
        if len(moves) > 1 and moves[0][0] == path:
            first = asked.flat.variables[path].value
            if all(m[0] == path and m[1] != first and m[2] == first for m in moves):
                return asked.at_transition(event, text, "`%s` leads back to %s, where `%s` begins, as a repair does: %s" % (
                    event, first, path, all_that_lead_back(asked, event)))
            said = " and ".join("`%s` from %s to %s" % m for m in moves[:3])
            return asked.at_transition(event, text, "`%s` moves %s: each move needs an event of its own" % (event, said))
    return asked.note(path, text, None)


def _entered(asked, text, path):
    first, entered = asked.flat.variables[path].value, {}
    for way, mode, given in Modes(asked).edges(path):
        label = way.event
        if given[0] == mode:
            return asked.at_transition(way.event, text, "`%s` can happen where `%s` is %s, and leaves it there" % (
                label, path, mode))
        if given[0] == first:
            return asked.at_transition(way.event, text, "`%s` leads back to %s, where `%s` begins, as a repair does: %s" % (
                label, first, path, all_that_lead_back(asked, label)))
        if given[0] in entered:
            before = entered[given[0]]
            cause = "the mode %s of `%s` is entered by `%s` from %s and by `%s` from %s: give each way a mode of its own" % (
                given[0], path, before[0], before[1], label, mode)
            return asked.at_transition(way.event, text, cause)
        entered[given[0]] = (label, mode)
    return asked.note(path, text, None)


def all_that_lead_back(asked, event):
    """The words that leave out an event and all others that lead back to where their state begins."""
    modes, found = Modes(asked), []
    for variable in modes.of:
        if variable is not None:
            first = asked.flat.variables[variable].value
            found += [way.event for way, mode, given in modes.edges(variable) if given == [first] and mode != first]
    found = list(dict.fromkeys(asked.drop + [event] + sorted(found)))
    if len(found) == len(asked.drop) + 1 or len(found) > MOST_NAMED:
        others = "" if len(found) <= MOST_NAMED else "; %d other events lead back too" % (len(found) - 1 - len(asked.drop))
        return "--drop %s leaves it out%s" % (",".join(asked.drop + [event]), others)
    return "--drop %s leaves out all that lead back" % ",".join(found)


def _wide(asked, text, path):
    return asked.note(path, text, "in its expressions a sum, a product, a count or another part may have more than 64 values, "
                                  "where each variable may have any value of its domain: use smaller domains")


def _many(asked, text, path):
    return asked.note(path, text, "drop the events that have no part in the question with --drop, or ask for the single and double "
                                  "failures alone with --max-order 2")
