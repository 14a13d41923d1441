"""Zones of a plant: which events are in which zone, from a file of lines `PATH,ZONE`. Not proved.

A path is that of an event or of a unit with all that is in it; the longest path that is above an event counts, with all its
lines: what is in several zones has a line for each.
"""
import csv

import lists
import texts
from command import CouldNot, escaped, shown

HEADS = {"path", "unit", "event", "part", "component"}
BLANKS = " \t\r"


def read(name):
    """The zones of each path of a file."""
    found = {}
    for number, cells in enumerate(rows(name), 1):
        if not any(cells) or cells[0].startswith("//") or number == 1 and cells[0].lower() in HEADS:
            continue
        if len(cells) != 2 or not all(cells):
            raise CouldNot("%s:%d: this is no line PATH,ZONE: %s" % (shown(name), number, ",".join(cells)))
        found.setdefault(cells[0], set()).add(cells[1])
    return found


def rows(name):
    """The cells of each line of a file, without the blanks around them."""
    try:
        return [[escaped(cell.strip(BLANKS)) for cell in row] for row in csv.reader(lists.text_lines_of(name))]
    except csv.Error as error:
        raise CouldNot("%s is no table with commas: %s" % (shown(name), error)) from error


def known_paths(events):
    """The paths of events and of the units above them."""
    words = [event.split(".") for event in events]
    return {".".join(one[:count]) for one in words for count in range(1, len(one) + 1)}


def check(name, zones, events):
    """CouldNot where a line of the file names nothing of the model."""
    known = known_paths(events)
    lost = next((path for path in zones if path not in known), None)
    if lost is not None:
        raise CouldNot("%s: `%s` is no unit or event of the model that has a transition" % (shown(name), lost))


def of(label, zones):
    """The zones of an event."""
    words = texts.event_of(label).split(".")
    paths = (".".join(words[:count]) for count in range(len(words), 0, -1))
    return next((zones[path] for path in paths if path in zones), set())


def common(cut, zones):
    """The zones in which all events of a cut set are."""
    found = [of(label, zones) for label in cut]
    return sorted(set.intersection(*found)) if found else []
