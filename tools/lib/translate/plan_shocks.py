"""The members of the new model for shocks: a state for each shock, and the flows that say whether a shock has come into
force and which tree it has led a group to. Not proved."""
from translate.elaborate import joined, unit_of
from translate.expressions import TRUE, all_of, any_of, no
from translate.plan import Transition, common, flattened, within


class Shocks:
    """The members for one cluster of shocks."""

    def __init__(self, plan, cluster):
        self.plan, self.cluster, self.groups = plan, cluster, plan.groups
        self.unit = common([group.unit for group in cluster.groups])
        self.struck, self.on, self.entered = {}, {}, {}
        for event in cluster.events:
            self._state(event, [one for one in cluster.ways if one.event == event])
        for stage in range(1, cluster.stages + 2):
            for group in cluster.groups:
                for component in group.components:
                    if component.parent is not None:
                        self.entered[component, stage] = self._entered(component, stage)
            if stage <= cluster.stages:
                for one in cluster.ways:
                    self.on[one.event, one.number, stage] = self._on(one, stage)
        for group in cluster.groups:
            if len(group.components) > 1:
                plan.project(group, self.unit, lambda one: TRUE if one.parent is None else self.entered[one, cluster.stages + 1])

    def _state(self, event, ways):
        """The state of a shock, in the unit of its first part: the program's diagrams follow the order of events."""
        plan = self.plan
        unit = ways[0].groups[0].unit
        wish = flattened(within(unit, event) if event.startswith(unit + ".") or not unit else event)
        variable = plan.names.member(unit, wish + "__shock")
        path = joined(unit, variable)
        modes = [(stage, one.number) for stage in range(1, self.cluster.stages + 1) for one in ways]
        if len(modes) == 1:
            plan.add_variable(unit, None, "Boolean %s (init = false);" % variable)
            self._event(unit, event, wish, modes[0], "not %s" % variable, "%s := true" % variable)
            self.struck[(event, *reversed(modes[0]))] = ("variable", path)
            return
        taken = set()
        none = plan.names.mode(wish + "_not", taken)
        taken.add(none)
        symbols = {}
        for stage, number in modes:
            symbols[stage, number] = plan.names.mode("%s_at%d_way%d" % (wish, stage, number), taken)
            taken.add(symbols[stage, number])
        domain = plan.names.domain([none, *symbols.values()])
        plan.add_variable(unit, None, "%s %s (init = %s);" % (domain, variable, none))
        for (stage, number), symbol in symbols.items():
            self._event(unit, event, wish, (stage, number), "%s == %s" % (variable, none), "%s := %s" % (variable, symbol))
            self.struck[event, number, stage] = ("==", ("variable", path), ("value", symbol))

    def _event(self, unit, event, wish, mode, guard, action):
        plan = self.plan
        name = plan.event_name(unit, event, wish)
        place = plan.elaboration.split[event][0][1] if unit_of(event) == unit else None
        plan.units[unit].transitions.append(Transition(name, "%s: %s -> %s;" % (name, guard, action), place))
        plan.map[joined(unit, name)] = dict(event=event, way=mode[1], also=[])

    def _current(self, component, stage):
        """That the group is in the tree of a component before the shock at a place in the order."""
        entered = self.entered.get((component, stage), TRUE)
        return all_of([entered, *[no(self.entered[inner, stage]) for inner in component.inner]])

    def _entered(self, component, stage):
        """That a shock before a place in the order has led the group to a component."""
        node, above = component.parent, component.parent.component
        terms = []
        for before in range(1, stage):
            who = any_of(self.on[event, number, before] for event, number in component.by)
            terms.append(all_of([who, self._current(above, before), self.plan.at(above, [node])]))
        return self._flow("%s__in%d_%d" % (self._word(component.group), component.number, stage), any_of(terms))

    def _word(self, group):
        return flattened(within(self.unit, group.variables[0]))

    def _on(self, one, stage):
        """That a shock comes at a place in the order, alone at it, and that its required parts can happen."""
        tests = [self.struck[one.event, one.number, stage]]
        if self.cluster.stages > 1:
            tests += [no(test) for (event, _, place), test in self.struck.items() if event != one.event and place == stage]
        if not self.cluster.simple:
            for group in one.groups:
                tests.append(self._possible(one, group, stage))
        wish = "%s__on%d_%d" % (flattened(within(self.unit, one.event) if one.event.startswith(self.unit + ".") or not self.unit
                                          else one.event), one.number, stage)
        return self._flow(wish, all_of(tests))

    def _possible(self, one, group, stage):
        found, always = [], True
        for component in group.components:
            if one.event in component.used:
                continue
            nodes = [node for node in component.nodes if self.groups.effect(one, group, node.values) is not None]
            always = always and len(nodes) == len(component.nodes)
            if nodes:
                found.append(all_of([self._current(component, stage), self.plan.at(component, nodes)]))
        return TRUE if always else any_of(found)

    def _flow(self, wish, tree):
        """A flow of the unit with this value; none where the value is one variable or constant."""
        if tree[0] in ("value", "variable"):
            return tree
        name = self.plan.names.member(self.unit, wish)
        self.plan.add_variable(self.unit, None, "Boolean %s (reset = false);" % name)
        self.plan.units[self.unit].assertions.append((None, "%s := %s;" % (name, self.plan.text(tree, self.unit))))
        return ("variable", joined(self.unit, name))


def plan_shocks(plan, cluster):
    """Adds the members for a cluster of shocks to a plan."""
    Shocks(plan, cluster)
