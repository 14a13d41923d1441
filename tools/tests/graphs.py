"""graphs.py FOLDER: compares the refusals for L3 with the graphs of classes and blocks, each made as a text in this folder. A
layout says where bodies stand: a capital letter is a class, a small one a block in the body around it, and `)` ends a body.
For each body and each class there may be a name of a type: behind `extends`, or that of an instance. Every graph of a
layout is tried where there are few, else a sample: those without a breach first, as there are only few of them."""

import os
import random
import subprocess
import sys
from concurrent.futures import ThreadPoolExecutor

LAYOUTS = ("A) A)B) Ab)) A)B)C) A)Bc)) Ab))C) Ab)c)) Abc))) A)B)C)D) A)B)Cd)) A)Bc))D) A)Bc)d)) A)Bcd))) Ab))C)D) Ab))Cd)) "
           "Ab)c))D) Abc)))D) Ab)c)d)) Ab)cd))) Abc))d)) Abc)d))) Abcd))))").split()
EXTENDS, INSTANCE = "extends", "instance"
KINDS = {"extends": (EXTENDS,), "instances": (INSTANCE,), "both": (EXTENDS, INSTANCE)}
ALL, SOME, WITHOUT = 81, 60, 30
"""A layout with at most ALL graphs is tried whole; of another one SOME graphs are, at most WITHOUT of them without a breach."""
MOST_MIXED = 9
"""Layouts with more places for names of types are not tried with both kinds of them."""


def bodies_of(layout):
    """The bodies in the order of the text, each with the one around it or None."""
    bodies, around = {}, []
    for letter in layout:
        if letter == ")":
            around.pop()
        else:
            bodies[letter] = around[-1] if around else None
            around.append(letter)
    return bodies


def contains_itself(bodies, graph):
    """The first name of a type, in the order of the text, from which the body that it stands in is reached again, or None.
    A body is reached from one that it stands in, that extends it or that has an instance of it."""
    reached = {one: {one} for one in bodies}
    for _ in bodies:
        for one, around in bodies.items():
            if around:
                reached[around] |= reached[one]
        for one, other in graph:
            reached[one] |= reached[other]
    in_order = [(one, other) for one in bodies for other in bodies if (one, other) in graph]
    return next(((one, other) for one, other in in_order if one in reached[other]), None)


def text_of(layout, graph):
    """The text of a graph, and the place of each name of a type."""
    lines, places = ["block Z", "end"], {}
    for letter in layout:
        if letter == ")":
            lines.append("end")
            continue
        lines.append(("class " if letter.isupper() else "block ") + letter)
        for other in filter(str.isupper, layout):
            kind = graph.get((letter, other))
            if kind:
                before = " extends " if kind == EXTENDS else " "
                lines.append(before + other + (";" if kind == EXTENDS else " of%s%s;" % (letter, other)))
                places[letter, other] = "%d:%d" % (len(lines), len(before) + 1)
    return "\n".join(lines) + "\n", places


def whole(places, kinds):
    """Every graph with these places and kinds of names of types."""
    if not places:
        return [{}]
    rest = whole(places[1:], kinds)
    return rest + [{places[0]: kind, **it} for kind in kinds for it in rest]


def without_breach(bodies, places, kinds):
    """Every graph without a breach: a graph that has one keeps it with more names of types."""
    found = [{}]
    for place in places:
        found += [more for it in found for kind in kinds for more in [{**it, place: kind}] if not contains_itself(bodies, more)]
    return found


def some(bodies, places, kinds, chance):
    """A sample: graphs without a breach, and others, with few names of types and with many."""
    clean = without_breach(bodies, places, kinds)
    drawn = chance.sample(clean, min(WITHOUT, len(clean)))
    while len(drawn) < SOME:
        share = chance.random()
        graph = {it: chance.choice(kinds) for it in places if chance.random() < share}
        if graph not in drawn and contains_itself(bodies, graph):
            drawn.append(graph)
    return drawn


def graphs_of(bodies, kinds, chance):
    """How many graphs there are, and those that are tried."""
    places = [(one, other) for one in bodies for other, around in bodies.items() if not around]
    if len(kinds) > 1 and len(places) > MOST_MIXED:
        return 0, []
    count = (1 + len(kinds)) ** len(places)
    return count, whole(places, kinds) if count <= ALL else some(bodies, places, kinds, chance)


def answer(path):
    done = subprocess.run([os.environ["ALTARICA"], "check", path], stdout=subprocess.PIPE, stdin=subprocess.DEVNULL, text=True)
    return done.returncode, done.stdout


def is_right(said, wanted):
    """L3 at this place; or where there is none, no refusal for L3 or an earlier rule."""
    if wanted:
        return said == (3, "rule: L3 at %s\n" % wanted)
    return said[0] == 0 or said[0] == 3 and not said[1].startswith(("rule: L1 ", "rule: L2 ", "rule: L3 "))


def main(folder):
    chance = random.Random(3)
    with ThreadPoolExecutor(os.cpu_count()) as calls:
        for number, layout in enumerate(LAYOUTS):
            bodies = bodies_of(layout)
            for kind, kinds in KINDS.items():
                count, graphs = graphs_of(bodies, kinds, chance)
                wanted, paths = [], []
                for graph in graphs:
                    text, places = text_of(layout, graph)
                    wanted.append(places.get(contains_itself(bodies, graph)))
                    paths.append(os.path.join(folder, "%d-%s-%d.alt" % (number, kind, len(paths))))
                    with open(paths[-1], "w", encoding="utf-8") as it:
                        it.write(text)
                wrong = ["%s: %s" % (text_of(layout, graph)[0], said) for graph, want, said in
                         zip(graphs, wanted, calls.map(answer, paths)) if not is_right(said, want)]
                breaches = sum(1 for want in wanted if want)
                tried = (layout, kind, len(graphs), count, breaches)
                what = "%s %s: L3 is right for %d of %d graphs, %d of them with a breach" % tried
                if wrong:
                    print("failed: %s (%d wrong, the first %s)" % (what, len(wrong), " ".join(wrong[0].split())[:300]))
                elif graphs:
                    print("passed: " + what)


if __name__ == "__main__":
    main(sys.argv[1])
