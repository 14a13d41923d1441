"""settled.py MODEL..: compares the values of all variables that the helpers read a fault with, at the start and after each
event that can happen there, with those that the program shows. Prints each that differs. ALTARICA names the program."""
import os
import sys
import tempfile

sys.dont_write_bytecode = True
sys.path.insert(0, os.path.join(os.path.dirname(os.path.dirname(os.path.realpath(__file__))), "lib"))
import command
import expressions
import model as models
import program
import settle

MOST = 60


def labels(flat, known):
    """The labels that can be fired, as they are written, with their ways."""
    count = {}
    for way in flat.ways:
        count[way.event] = count.get(way.event, 0) + 1
    for way in flat.ways:
        if not way.hidden and way.guard is not None and settle.sets_of(flat, way, known) is not None:
            yield way.event if count[way.event] == 1 else "%s#%d" % (way.event, way.number)


def blocks(trace):
    """The values after each `show`."""
    found, now = [], None
    for line in trace.splitlines():
        if not line.startswith("  "):
            now = {} if line == "show" else None
            if now is not None:
                found.append(now)
        elif now is not None and not line.startswith("  observer "):
            path, value = line[2:].split(" = ")
            now[path] = expressions.value_of(value)
    return found


def differs(model):
    flat = models.Source(model).flat
    states, lines = [settle.first_state(flat)], ["show"]
    for label in list(labels(flat, settle.all_values(flat, states[0])))[:MOST]:
        states.append(settle.after(flat, states[0], label))
        lines += ["fire " + label, "show", "back"]
    with tempfile.NamedTemporaryFile("w", suffix=".script") as script:
        script.write("\n".join(lines) + "\n")
        script.flush()
        status, trace = program.run(["replay", model, script.name])
    # Of a run that ends in a fault what is before it is compared.
    shown = blocks(trace)
    if status not in (0, 5) or status == 0 and len(shown) != len(states):
        return "the replay ends with %d" % status
    for state, known in zip(states, shown):
        mine = settle.all_values(flat, state)
        for path, value in known.items():
            if mine.get(path) != value:
                return "%s is %s, and the program shows %s" % (path, mine.get(path), value)
    return ""


tried = 0
for model in sys.argv[1:]:
    try:
        said = differs(model)
        tried += 1
    except command.Refused:
        continue
    if said:
        print("%s: %s" % (model, said))
print("%d models" % tried)
