"""The section of a page on the cut sets of an observer: those with the fewest events first, in rows that are there without a
script and on paper, and the rest as data for the script. Not proved: the list is the program's."""
import collections
import json
from html import escape

MOST_ROWS = 5000
"""The most cut sets of a section that are rows."""

PART = """<p>%(count)s, those with the fewest events first. Each is shown in an order in which its events can happen and bring the
condition about; no proper subset of it does. Where it says <i>then</i>, one event has to come before the other; where it says
<i>and</i>, the order is free. The number is the line in the listing of the program.%(stories)s</p>
<div class="filters">
<label>number of events<select class="size"><option value="">any</option>%(options)s</select></label>
<label>with an event of unit<select class="unit"><option value="">any</option>%(units)s</select></label>
<label>with an event whose path has<input class="name" size="16"></label>
<label>order<select class="by"><option value="">by number of events</option><option value="listed">as listed</option></select></label>
<button class="csv">Save as CSV</button>
<span class="shown"></span>
</div>
<table class="list">%(rows)s</table>
<button class="more" hidden>show more</button>
%(left)s<script type="application/json" class="rest">%(data)s</script>"""
LEFT = """<p class="plain">%(left)d more cut sets are not in these rows: <code>%(command)s</code> lists all%(script)s.</p>
"""


class Listing:
    """The cut sets of a listing by their number of events, each as its line and the numbers of its labels."""

    def __init__(self, text):
        self.numbers, self.cuts = collections.defaultdict(lambda: len(self.numbers)), {}
        number, count = self.numbers.__getitem__, 0
        for line in text.split("\n"):
            if line.startswith("{"):
                count += 1
                labels = tuple(map(number, line[1:-1].split(", "))) if len(line) > 2 else ()
                self.cuts.setdefault(len(labels), []).append((count, labels))
        self.count, self.labels = count, list(self.numbers)

    @property
    def sizes(self):
        """(number of events, how many cut sets), the smallest first."""
        return [(size, len(cuts)) for size, cuts in sorted(self.cuts.items())]

    def in_order(self):
        """(line, labels) of each cut set, those with the fewest events first."""
        for size in sorted(self.cuts):
            for number, labels in self.cuts[size]:
                yield number, [self.labels[one] for one in labels]

    def singles(self):
        return [self.labels[one] for _, (one,) in self.cuts.get(1, ())]

    def events(self):
        """For each label that is in a cut set the least number of events of one, and how many it is in."""
        found = {}
        for size in sorted(self.cuts):
            for _, labels in self.cuts[size]:
                for one in labels:
                    least, count = found.get(one, (size, 0))
                    found[one] = least, count + 1
        return {self.labels[one]: cell for one, cell in found.items()}

    def units(self):
        return sorted({unit for label in self.labels for unit in above(label)})


def section(listing, tree_of, stories, command):
    """The section; stories has the text of some cut sets by their line, command lists all."""
    trees = [tree_of.get(label, -1) for label in listing.labels]
    bodies, room, rest = [], MOST_ROWS, []
    for size in sorted(listing.cuts):
        cuts = listing.cuts[size]
        shown, left = cuts[:room], cuts[room:]
        room -= len(shown)
        rest += ([number, *labels] for number, labels in left)
        if shown:
            heading = '<tr class="of"><th colspan="2">%s: %s</th></tr>' % (events_word(size), cuts_word(len(cuts)))
            bodies.append("<tbody>%s%s</tbody>" % (heading, "".join(
                row(number, [(listing.labels[one], trees[one]) for one in labels], stories.get(number)) for number, labels in shown)))
    told = ' <span class="folded">Under %s it is folded how it happens.</span>' % ("each" if len(stories) == listing.count else "the first %d" % len(stories)) if stories else ""
    left = LEFT % {"left": len(rest), "command": escape(command), "script": ", and the filters find them"} if rest else ""
    return PART % {
        "count": cuts_word(listing.count), "stories": told, "rows": "".join(bodies), "left": left,
        "data": data_of({"labels": listing.labels, "trees": trees, "rest": rest}),
        "options": "".join('<option value="%d">%d</option>' % (size, size) for size, _ in listing.sizes),
        "units": "".join("<option>%s</option>" % escape(unit or "the main block") for unit in listing.units())}


def row(number, events, story):
    """A row of the list: `then` where the event before has to come first, else `and`, and a comma where this is not known."""
    text, before = [], None
    for label, tree in events:
        if before is not None:
            text.append("<i>%s</i> " % ("," if tree < 0 else "then" if tree == before else "and"))
        text.append("<b>%s</b> " % escape(label))
        before = tree
    told = "<details><summary>how it happens</summary><pre>%s</pre></details>" % escape(story) if story else ""
    return "<tr><td>%d</td><td>%s%s</td></tr>" % (number, "".join(text) or "no event: the condition holds at the start", told)


def above(label):
    """The units in which an event is, the main block as ``."""
    words = label.split("#")[0].split(".")[:-1]
    return [".".join(words[:n]) for n in range(1, len(words) + 1)] or [""]


def events_word(count):
    return "no event" if count == 0 else "1 event" if count == 1 else "%d events" % count


def cuts_word(count):
    return "1 minimal cut set" if count == 1 else "%d minimal cut sets" % count


def data_of(value):
    """A value as JSON that a page may hold."""
    return json.dumps(value, separators=(",", ":")).replace("<", "\\u003c")
