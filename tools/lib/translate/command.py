"""The command: its words, what it asks the program, and what it writes. Not proved."""
import json
import re
import sys
import tempfile

import command
import grammar
import hierarchy
import lists
import program
import tokens
from translate import back, edits, places, semantic, syntax
from translate.elaborate import elaborate
from translate.refused import Refused
from translate.source import Source

DONE, PROGRAM_REFUSED, COULD_NOT = command.DONE, command.REFUSED, command.COULD_NOT
OUTSIDE = 4
"""The status of the program for a model outside the static fragment."""
PLACE = re.compile(r"(0|[1-9][0-9]{0,8}):(0|[1-9][0-9]{0,8})")


def declare(parser):
    parser.add_argument("model", nargs="*", action="store")
    for name in ("--map", "--drop", "--main", "--range", "--observer", "--value", "--leave-out"):
        parser.add_argument(name)
    parser.add_argument("--immediate", choices=("settle", "ordinary"))
    parser.add_argument("--scale", type=int)
    for name in ("--broadcast", "--profile", "--back", "--place"):
        parser.add_argument(name, action="store_true")
    return parser


def settled(words):
    """The words with what stands for those that were not given; NoUse where they go on no way together."""
    if not words.model:
        raise command.NoUse("a model is missing")
    if words.back and words.place:
        raise command.NoUse("--back and --place are not given together")
    if (words.back or words.place) and len(words.model) != 2:
        raise command.NoUse("--back takes a listing and a map, --place a map and LINE:COLUMN")
    command.apart(words.map, *words.model)
    words.drop, words.leave_out = words.drop or "", words.leave_out or ""
    words.value = "true" if words.value is None else words.value
    words.scale = 1 if words.scale is None else words.scale
    return words


class Stopped(Exception):
    """The run ends with a status; `lines` are for standard error."""

    def __init__(self, status, *lines):
        super().__init__(status)
        self.status, self.lines = status, lines


def read(path):
    return sys.stdin.buffer.read().decode("latin-1") if path == "-" else tokens.read(path)


def listed(text):
    return frozenset(word for word in text.split(",") if word)


class Translation:
    """One run: from files to the new text."""

    def __init__(self, words):
        self.words = words
        files = places.Files(list(map(command.shown, words.model)), [read(path) for path in words.model])
        self.trail, self.notes = places.Trail(files), []

    def note(self, text, at, skip=0):
        line = "%s: note: %s" % (self.trail.written(at, skip), text)
        if line not in self.notes:
            self.notes.append(line)

    def refuse(self, refused, skip=0):
        at = self.trail.written(refused.place.start, skip) if refused.place else command.shown(self.words.model[0])
        return Stopped(COULD_NOT, *self.notes, "%s: refused: %s" % (at, refused.reason))

    def _asked(self, command, text, *more):
        """What the program says of a text for a command."""
        with tempfile.NamedTemporaryFile("w", suffix=".alt", encoding="latin-1", newline="") as file:
            file.write(text)
            file.flush()
            return program.run([command, file.name, *(["--main=" + self.words.main] if self.words.main else []), *more])

    def to_profile(self):
        """The text after the changes of syntax, that the program takes."""
        try:
            edited, notes = syntax.to_profile(self.trail.text, self.words.range, self.words.scale)
        except Refused as refused:
            raise self.refuse(refused) from refused
        for text, at in notes:
            self.note(text, at)
        self.trail.add(edited)
        status, said = self._asked("fragment", self.trail.text)
        self.is_static = not status
        if status not in (0, OUTSIDE):
            found = PLACE.search(said)
            at = tokens.Places(self.trail.text).at(int(found[1]), int(found[2])) if found else 0
            raise Stopped(PROGRAM_REFUSED, *self.notes, "%s: the program refuses the text with status %d: %s"
                          % (self.trail.written(at), status, said.strip()))

    def to_static(self):
        """The new text and the map of its events."""
        source = Source(self.trail.text, self.words.main)
        elaboration, system = elaborate(source)
        drop = frozenset(elaboration.tree.canonical(event) for event in listed(self.words.drop))
        at_once = self._at_once(system, drop)
        if not drop and not at_once and self.is_static:
            for text, place in semantic.notes_of(system):
                self.note(text, place.start)
            self.trail.add(edits.Edited(self.trail.text, [edits.Piece(self.trail.text, 0)]))
            return {event: dict(event=event, way=None, also=[]) for event in system.fired}, system
        asked = semantic.Asked(drop, at_once, self.words.broadcast)
        try:
            written, found, system, notes = semantic.translate(self.trail.text, asked, self.words.main)
            if at_once:
                semantic.refuse_conflict(self.trail.text, asked, self.words.main, self._cuts)
        except Refused as refused:
            raise self.refuse(refused) from refused
        for text, place in notes:
            self.note(text, place.start if place else 0)
        self.trail.add(written)
        self._is_static()
        return found, system

    def _cuts(self, text, observer):
        return self._asked("cuts", text, "--observer=" + observer)

    def _at_once(self, system, drop):
        """The events that happen at once, if they are to settle; refused, if nothing is said of them."""
        found = [event for event in system.events.values() if event.at_once and event.path not in drop
                 and any(not way.hidden for way in system.ways_of(event.path))]
        if not found or self.words.immediate == "ordinary":
            return frozenset()
        if self.words.immediate is None:
            one = found[0]
            raise self.refuse(Refused("%s happens at once (a delay of zero), and here no event does: --immediate settle lets it "
                                      "happen as soon as it can, --immediate ordinary takes it as an event like others, --drop "
                                      "leaves it out" % one.path, one.member.name))
        return frozenset(event.path for event in found)

    def _is_static(self):
        status, said = self._asked("fragment", self.trail.text)
        if status:
            raise Stopped(COULD_NOT, *self.notes, "%s: refused: the program says of the new model: %s"
                          % (command.shown(self.words.model[0]), said.strip()))

    def map_text(self, events, system, profile):
        found = dict(files=self.words.model, main=self.words.main, drop=sorted(listed(self.words.drop)), events=events,
                     order=system.fired, notes=self.notes, places=self.trail.rows(), text=profile)
        return "{%s}\n" % ",\n".join("%s:%s" % (compact(key), in_lines(value)) for key, value in found.items())


def compact(value):
    return json.dumps(value, separators=(",", ":"))


def in_lines(value):
    """A value as JSON with a line for each of its members."""
    if isinstance(value, dict):
        return "{%s}" % ",\n".join("%s:%s" % (compact(key), compact(one)) for key, one in value.items())
    return "[%s]" % ",\n".join(map(compact, value)) if isinstance(value, list) else compact(value)


def translate(words):
    run = Translation(words)
    run.to_profile()
    profile = run.trail.text
    if not words.profile:
        events, system = run.to_static()
        if words.map:
            command.put(words.map, run.map_text(events, system, profile).encode("latin-1"))
        elif any(new != found["event"] or found["also"] for new, found in events.items()):
            run.notes.append("%s: note: events of the new model stand for others: --map FILE keeps what --back needs to write "
                             "its list in the old names" % command.shown(words.model[0]))
    command.write(run.trail.text)
    raise Stopped(DONE, *run.notes)


def read_map(path):
    try:
        found = json.loads(read(path))
        is_one = is_map(found)
    except (ValueError, TypeError, AttributeError, KeyError, RecursionError, grammar.SyntaxFault, tokens.LexFault) as error:
        raise command.CouldNot("%s: this is no map that from_altarica wrote" % command.shown(path)) from error
    if not is_one:
        raise command.CouldNot("%s: this is no map that from_altarica wrote" % command.shown(path))
    return found


def is_map(found):
    """Whether what was read has the form of a map: names of files, events, places from the first one on, and a model."""
    names = [*found["files"], *(name for one in found["events"].values() for name in [one["event"], *one["also"]])]
    ways = [one["way"] for one in found["events"].values()]
    numbers = [number for row in found["places"] for number in row[:5]]
    return (all(isinstance(name, str) for name in names) and all(isinstance(way, int) or way is None for way in ways) and
            all(isinstance(number, int) for number in numbers) and all(len(row) == 6 for row in found["places"]) and
            found["places"][:1] and found["places"][0][:2] == [1, 1] and
            all(0 <= row[2] < len(found["files"]) for row in found["places"]) and bool(grammar.parse(found["text"])))


def value_of(word):
    """The value that a word of the command is."""
    if word in ("true", "false"):
        return word == "true"
    return int(word) if re.fullmatch("-?[0-9]+", word) else word


def goal_of(listing, words):
    """The observer that is asked for and its value."""
    if words.observer not in listing.system.observers:
        raise command.CouldNot("%s is no observer of the first model" % command.shown(words.observer))
    value, values = value_of(words.value), listing.values_of(words.observer)
    if values is not None and value not in values or values is None and type(value) is not int:
        raise command.CouldNot("%s is no value of %s" % (command.shown(words.value), words.observer))
    return words.observer, value


def write_back(words):
    listing = back.Listing(words.model[0], lists.lines_of(words.model[0]), read_map(words.model[1]))
    goal = goal_of(listing, words) if words.observer else None
    lost = sorted(listed(words.leave_out) - set(listing.number))
    if lost:
        raise command.CouldNot("--leave-out: %s is no event of the first model" % command.shown(lost[0]))
    try:
        text = listing.written(listed(words.leave_out), goal)
    except Refused as refused:
        raise Stopped(COULD_NOT, "%s: refused: %s" % (command.shown(words.model[0]), refused.reason)) from refused
    command.write(text)
    raise Stopped(DONE, *["%s: note: %s" % (command.shown(words.model[0]), note) for note in listing.notes])


def write_place(words):
    found = read_map(words.model[0])
    at = PLACE.fullmatch(words.model[1])
    if not at or "0" in at.groups():
        raise command.NoUse("%s is no LINE:COLUMN, from 1:1" % words.model[1])
    file, line, column = places.place_in(found["places"], found["files"], int(at[1]), int(at[2]))
    command.write("%s:%d:%d\n" % (command.shown(file), line, column))
    raise Stopped(DONE)


def work(words):
    """Does what the words ask and returns the status."""
    words = settled(words)
    try:
        (write_back if words.back else write_place if words.place else translate)(words)
    except Stopped as stopped:
        sys.stdout.flush()
        command.to_errors("".join(command.escaped(line) + "\n" for line in stopped.lines))
        return stopped.status
    except hierarchy.Unknown as error:
        raise command.CouldNot("%s: it has more units, or deeper ones, than are read" % command.shown(words.model[0])) from error
    return DONE
