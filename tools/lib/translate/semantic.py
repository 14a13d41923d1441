"""From a text in the profile to one in the static fragment. Not proved."""
from dataclasses import replace

import texts
from translate import expressions
from translate.back import old_events
from translate.elaborate import elaborate
from translate.groups import Groups
from translate.live import Asked, Ways
from translate.names import Names
from translate.plan import Plan
from translate.plan_shocks import plan_shocks
from translate.refused import Refused
from translate.rewrite import Rewriting
from translate.source import Source
from translate.unfold import unfold

FAULT = 5
"""The status of the program where the flows contradict each other."""


def translate(text, asked=None, main=None):
    """The new text with its places (Edited), the map of its events, the system of the text, and what is to be said of
    it: (text, place)."""
    asked = asked or Asked()
    source = Source(text, main)
    elaboration, system = elaborate(source)
    ways = Ways(system, asked)
    groups = Groups(ways)
    clusters = unfold(groups)
    plan = Plan(elaboration, groups, Names(source, elaboration))
    for cluster in clusters:
        plan_shocks(plan, cluster)
    written = Rewriting(source, elaboration, plan).written()
    return written, plan.map, system, ways.notes


def notes_of(system):
    """What is to be said of a model that stays as it is."""
    return Ways(system, Asked()).notes


def refuse_conflict(text, asked, main, cuts):
    """Refuses events that happen at once where the flows contradict each other if they come later: the states that are left
    at once are among those that are then tried, and no list of the translation shows them. `cuts` gives the status and the
    text that the program writes for a text and an observer."""
    later = replace(asked, at_once=frozenset())
    try:
        written, events, system, _ = translate(text, later, main)
    except Refused as refused:
        _, system = elaborate(Source(text, main))
        if any(len(found) > 1 for found in system.defined.values()):
            raise Refused("whether the flows contradict each other in a state that is left at once cannot be tried: "
                          + refused.reason, refused.place) from refused
        return
    observer = next((path for path, tree in system.observers.items() if expressions.is_truth(tree, system)), None)
    status, said = cuts(written.text, observer) if observer else (0, "")
    if status == FAULT:
        found = dict.fromkeys(event for label in texts.labels(said) for event in old_events(events, label))
        raise Refused("the flows contradict each other after {%s}, if events that happen at once come later: they may do so in a "
                      "state that is left at once" % ", ".join(found), system.events[min(asked.at_once)].member.name)


__all__ = ["translate", "refuse_conflict", "Asked", "Refused"]
