"""The causes of faults of a script's run, and of what is wrong with scripts, lists and the words of a command that name
things of the model. Not proved: what is said here is read from `flat` and from the text of the model.
"""
import re

import hierarchy
import program
import settle
import texts
import tokens
from asked import MOST_NAMED, Note, near, quoted
from flow_causes import flow_fault, state_after
from refusals import SCRIPT_COMMANDS

KNOWN = tuple(command.split()[0] for command in SCRIPT_COMMANDS)


def fault(asked, line):
    """A note on a line `fault: ..`."""
    body = line[len("fault: "):]
    listed = re.fullmatch(r"\{(.*)\}: (.*)", body)
    if listed:
        events = listed.group(1)
        note = flow_fault(asked, line, listed.group(2), state_after(asked.flat, [e for e in events.split(", ") if e]))
        return note._replace(text=line if events else line + " (at the start)")
    where, what = body.split(": ", 1)
    if where == "start":
        return flow_fault(asked, line, what, settle.first_state(asked.flat))
    if where == "back":
        return script_line(asked, line, "no step is left to take back here")
    if what == "not enabled":
        return script_line(asked, line, not_enabled(asked, where))
    if what.startswith("two values for ") or what.endswith(" outside its domain"):
        return asked.at_transition(texts.event_of(where), line, "its action gives the variable %s" % (
            "two different values at once" if what.startswith("two") else "a value that its domain does not have"))
    return flow_fault(asked, line, what, state_of_script(asked))


def way_of(asked, label):
    event, _, number = label.partition("#")
    return next(w for w in asked.flat.ways if w.event == event and w.number == int(number or 1))


def not_enabled(asked, label):
    way = way_of(asked, label)
    if way.guard is None:
        must = [p[1] for p in way.parts if p[0] == "!"]
        names = must or [p[1] for p in way.parts]
        if len(names) == 1:
            return "its part `%s` cannot be fired then" % names[0]
        return "of its parts %s %s can be fired then" % (quoted(names), "not all" if must else "none")
    return "its guard is false then: %s" % way.guard.replace("'", "")


def commands(asked):
    """The commands of a script with their numbers of lines, and how many of them were done when a replay ended."""
    trace = program.run(asked.replay())[1]
    done = sum(1 for l in trace.splitlines() if re.match(r"(fire |back$|show$|enabled$)", l))
    lines = [(number, line) for number, line in enumerate(tokens.read(asked.script).split("\n"), 1)
             if line.strip(" \t\r") and not line.strip(" \t\r").startswith("//")]
    return lines, done


def script_line(asked, text, cause):
    """A note on the command of a script at which a replay ends."""
    lines, done = commands(asked)
    for number, line in lines[done:done + 1]:
        return Note(asked.script, number, len(line) - len(line.lstrip(" \t")) + 1, text, cause)
    return Note(asked.script, None, None, text, cause)


def state_of_script(asked):
    """The state in which a replay of the script finds a fault of flows, or None."""
    lines, done = commands(asked)
    events = []
    for _, line in lines[:done + 1]:
        word, _, label = line.strip(" \t\r").partition(" ")
        if word == "fire":
            events.append(label.strip())
        elif word == "back":
            del events[-1:]
    return state_after(asked.flat, events)


def script(asked, line):
    """A note on a line `script: ..`."""
    found = re.fullmatch(r"script: line ([0-9]+) (.*)", line)
    if not found:
        return Note(asked.model, None, None, line, word_cause(asked, line))
    number, what = int(found.group(1)), found.group(2)
    source = tokens.read(asked.script).split("\n")[number - 1]
    column = len(source) - len(source.lstrip(" \t")) + 1
    if what == "is no command":
        cause = no_command(asked, source.strip(" \t\r"))
    elif what == "is no cut":
        cause = no_cut(asked, source.strip(" \t\r"))
    else:
        label, cause = bad_label(asked, source, what)
        column = source.index(label) + 1 if label and label in source else column
    return Note(asked.script, number, column, line, cause)


def is_event(asked, label):
    return label_cause(asked, label.strip()) is None


def no_command(asked, line):
    """Why a line of a script is no command, as far as the slip is plain."""
    word, _, rest = line.partition(" ")
    first = SCRIPT_COMMANDS[0].split()[0]
    if line.startswith("{"):
        inner = line.strip("{};").split(",")[0].strip()
        return ("a cut in braces is a line of a list. In a script each event has a line of its own, `fire %s`; tools/line_as_script "
                "writes a line of a list so" % (inner or "LABEL"))
    if word not in KNOWN and word.lower() in KNOWN:
        return "`%s` is written `%s`, in small letters" % (word, word.lower())
    if word == first and "//" in rest:
        return "a remark is on a line of its own, behind `//`"
    if word == first and ":=" in rest:
        return "what is fired is an event, not a value of a state: the line names an event that gives the value"
    if word == first and len(rest.replace(",", " ").split()) > 1:
        return "one event a line: %s" % ", then ".join("`fire %s`" % label for label in rest.replace(",", " ").split()[:3])
    if word == first:
        return "`fire` has the label of an event behind it"
    if word in KNOWN:
        return "nothing follows `%s`" % word
    if is_event(asked, line.rstrip(";")):
        return "no `fire` is before the label: write `fire %s`" % line.rstrip(";")
    return "a line is one of %s, in small letters, and nothing follows it%s" % (
        ", ".join("`%s`" % c for c in SCRIPT_COMMANDS), near(word, KNOWN))


def no_cut(asked, line):
    """Why a line of a list is no cut, as far as the slip is plain."""
    bare = line.rstrip(";").strip()
    if line.startswith("fire "):
        return "this is a line of a script: a list has a cut in braces on each line, as `{a.fail, b.fail}`"
    if line.startswith("{") and line.endswith(";"):
        return "no `;` is behind a cut: write `%s`" % bare
    if not line.startswith("{") and all(is_event(asked, label) for label in bare.split(",")):
        return "a cut is in braces: write `{%s}`" % bare
    return "a line is a cut in braces, as `{a.fail, b.fail}`, or `count N`"


def bad_label(asked, source, what):
    """The first bad label of a line and why it is bad."""
    text = source.strip(" \t\r")
    labels = texts.labels(text) if text.startswith("{") else [text[4:].strip(" \t\r")]
    for label in labels:
        cause = label_cause(asked, label)
        if cause:
            return label, cause
    return labels[0] if labels else "", None


def label_cause(asked, label):
    path = texts.event_of(label)
    try:
        path = asked.tree.canonical(path)
    except hierarchy.Unknown:
        pass
    ways = [w for w in asked.flat.ways if w.event == path]
    if not ways:
        return no_event(asked, path)
    if ways[0].hidden:
        return "`%s` is hidden: it happens as a part of other events alone" % path
    if "#" not in label and len(ways) > 1:
        return "`%s` has %d ways: write `%s#1` to `%s#%d`" % (path, len(ways), label, label, len(ways))
    if "#" in label and not re.fullmatch(r"[1-9][0-9]*", label.partition("#")[2]):
        return "behind `#` comes the number of a way, from 1"
    if "#" in label and int(label.partition("#")[2]) > len(ways):
        return "`%s` has %s" % (path, "one way" if len(ways) == 1 else "%d ways" % len(ways))
    return None


def no_event(asked, path):
    if path in asked.tree.of_kind("event"):
        return "`%s` is an event without a transition, so there is nothing to fire" % path
    if path in asked.tree.places:
        kind = asked.tree.places[path][0]
        return "`%s` is %s %s and no event" % (path, "an" if kind == "observer" else "a", kind)
    if any(n.path == path for n in asked.tree.nodes):
        return "`%s` is a unit and no event" % path
    events = {w.event for w in asked.flat.ways if not w.hidden}
    if path.endswith(";") and path.rstrip(";") in events:
        return "no `;` is behind a label: write `%s`" % path.rstrip(";")
    main, _, rest = path.partition(".")
    if asked.tree.bodies.main is not None and main == asked.tree.bodies.main.name.text and rest in events:
        return "a path begins below the main block, without its name: write `%s`" % rest
    return "the model has no event `%s`%s" % (path, nearest_events(path, events))


def nearest_events(path, events):
    """The events that a wrong path may mean: all that end with it, else those that begin with it, else the nearest."""
    unit, _, name = path.rpartition(".")
    ends = sorted(e for e in events if e.endswith("." + path))
    if len(ends) > 1:
        more = ", .." if len(ends) > MOST_NAMED else ""
        return "; %d events end so: %s%s" % (len(ends), ", ".join("`%s`" % e for e in ends[:MOST_NAMED]), more)
    begins = sorted(e for e in events if e.startswith(path) and e.rpartition(".")[0] == unit and name)
    if not ends and len(begins) > 1:
        return "; the nearest are %s" % quoted(begins[:MOST_NAMED])
    return near(path, ends or events) or ("; the event of this name is `%s`" % ends[0] if ends else of_unit(unit, events))


def of_unit(unit, events):
    """The events of a unit."""
    own = sorted(e for e in events if unit and e.rpartition(".")[0] == unit)
    return "; the unit `%s` has %s" % (unit, quoted(own[:MOST_NAMED])) if own else ""


def word_cause(asked, line):
    options = asked.words.options
    observers = [o.path for o in asked.flat.observers]
    if line == "script: no observer":
        name = options.get("--observer", "")
        for unit in asked.tree.bodies.units.values():
            if unit is not asked.tree.bodies.main and any(m.kind == "observer" and m.name.text == name for m in unit.members):
                return "the main block is `%s`, and `%s` is an observer of the %s `%s`%s" % (
                    asked.tree.bodies.main.name.text, name, unit.kind, unit.name.text,
                    ": --main %s" % unit.name.text if unit.kind == "block" else "")
        return "the model has no observer `%s`: it has %s" % (name, quoted(observers) if observers else "none")
    if line == "script: no event":
        for event in options.get("--drop", "").split(","):
            if " " in event:
                return "`%s` of --drop: the paths are joined by commas, without spaces" % event
            if asked.tree.canonical(event) not in asked.tree.of_kind("event"):
                return "`%s` of --drop: %s" % (event, no_event(asked, event))
    if line == "script: no value":
        name = options.get("--observer", "")
        if "--value" in options:
            return "`%s` is no value of the type of `%s`" % (options["--value"], name)
        return "`%s` is not Boolean, so --value has to say which of its values is asked for" % name
    return None
