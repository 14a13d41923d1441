"""What is said of the causes of broken rules, rule by rule, as a table. Not proved; `rule_causes` finds the causes."""

SENTENCES = {
    # L1: two items with one name, or no domain
    "name is taken": "`%s` is the name of the %s on line %d already, and no two items have one name",
    "ends turned round": "its low end %d is above its high end %d",
    "too many values": "it has %d values, and a domain has at most 256",
    "symbol twice": "it has the symbol `%s` twice",
    # L2: no such class or domain
    "a block is one": "`%s` is a block, and %s is needed: of a block there is one only, where it is written",
    "domain, no class": "`%s` is a domain, and a class is needed",
    "class, no domain": "`%s` is a class, and a domain is needed",
    "no such type": "no %s of the text has the name `%s`%s",
    # L3: a class that contains itself
    "itself as a part": "`%s` has itself as a part, or extends itself",
    "contains itself": "`%s` contains itself: %s",
    # L4: two members with one name
    "member twice": "this unit has %s `%s` already, on line %d",
    # L5: no main block
    "no such main block": "no top-level block has the name that `--main` gives: there is %s",
    "no block at all": "the text has no `block` outside of all others: the last such block is the system, and "
    "classes alone are none",
    # L6: a path to no unit
    "owner has the unit": "; the unit above has one: write `owner.%s`",
    "other kind of member": "`%s` in the %s is %s and no %s",
    "no such member": "the %s has no member `%s`%s",
    # L7: a path in a circle
    "follows itself": "to find `%s` one has to follow this `%s` itself",
    "copy of what is around it": "`%s` is the unit that this stands in, so its copy would contain a copy, and so on",
    # L8: the setting of a variable
    "no setting": "it has none: `(init = ..)` makes it a state, which transitions change, and `(reset = ..)` a "
    "flow, which assertions set",
    "both settings": "it has both: `init` makes it a state, `reset` a flow, and it is one of them",
    "another setting": "its setting is `%s`, and a variable has `init` or `reset`",
    "several settings": "it has the settings %s, and it has one, `init` or `reset`",
    # L9: the target of a setting
    "set already": "this declaration sets `%s` already",
    "no variable to set": "it names no variable of the part: a state's value is set as `v.init`, a flow's as `v.reset`",
    "setting through an alias": "`%s` in the %s is no part: a setting goes through parts, not through aliases",
    "parameter by its name": "`%s` is a parameter: it is set by its name alone",
    "nothing to set": "`%s` in the %s is %s, and parameters, `init` and `reset` are set alone",
    "flow is fed by an assertion": "`%s` is a flow, and a setting feeds nothing: write `assertion %s := VALUE;` "
    "in the unit above. `%s.reset` is its value where no assertion gives it one",
    "set by another word": "`%s` is a %s: it is set as `%s.%s`",
    # L10: a name that is nothing here
    "no event of this unit": "`%s` is %s of this unit and no event",
    "no such event": "the %s declares no event `%s`%s: a transition is one of an event of its own unit, as `event %s;`",
    "symbol is hidden": "`%s` is %s of the %s, which hides the symbol `%s`: give one of them another name",
    "nothing above the main block": "the main block has no unit above it, so `owner` names nothing here",
    "other kind is needed": "`%s` is %s, and %s is needed",
    "no unit on the way": "`%s` in the %s is %s and no unit",
    "no such member of a path": "the %s has no member `%s`%s%s",
    "truth values": "the truth values are written `true` and `false`, in small letters",
    "no such name": "`%s` is no variable or parameter of the %s, and no domain has such a symbol%s",
    "owner has the member": "; the unit above has one, `owner.%s`. Or the `end` of the block `%s` is missing above",
    "flow into a class": "; the main block has one: a class takes what is outside of it by a flow, which the "
    "unit above sets for each part",
    "main has the member": "; the main block has one, `main.%s`",
    "constant with a dot": "the value is a constant, and names symbols and parameters of its own unit alone, without a dot",
    "later parameter": "a parameter's value names parameters alone that come before it",
    "no constant": "the value is a constant, and `%s` is %s",
    "no such symbol": "`%s` is no symbol of a domain and no parameter of the %s%s",
    # L11: types
    "wrong type": "%s has to be %s, and this is %s%s",
    # L12: values outside of a domain
    "values of a range": "the domain `%s` has the values from %d to %d",
    "symbols of a domain": "the domain `%s` has the symbols %s",
    # L13: what is assigned
    "two-way in a transition": "`:=:` is for assertions: it sets two flows from each other, and a transition sets states",
    "flow in a transition": "`%s` is a flow, as it is declared with `%s` on line %d: transitions set states, "
    "and assertions set flows",
    "state in an assertion": "`%s` is a state, as it is declared with `%s` on line %d: assertions set flows, "
    "and transitions set states",
    # L14: an event that is a part of itself
    "part of itself": "`%s` is a part of itself: %s",
}


def said(cause, *parts):
    """The sentence on a cause with what it is about: names, kinds and places, in the order of the sentence."""
    return SENTENCES[cause] % parts
