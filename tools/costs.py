#!/usr/bin/env python3
"""costs.py KIND N [--into FOLDER]
costs.py --list

Writes a model of a kind and a size that shows what something costs. With --into it writes all files of the kind into the
folder, the script or list of its command too, and prints the words for the program that it is made for. With --list it
prints each kind with what its N counts. docs/develop/SPEED.md has what the program takes.

Status: 0 written; 2 these words are no use; 4 it could not be done.
Not proved: it writes texts.
"""
import os
import random
import sys
from collections import namedtuple

sys.dont_write_bytecode = True
sys.path.insert(0, os.path.join(os.path.dirname(os.path.realpath(__file__)), "lib"))
import command

Job = namedtuple("Job", "verb model other more")
"""A command, its model, the text of its script or list (None for a command without), and further words."""
Kind = namedtuple("Kind", "write about small largest")
KINDS = {}
STATION = "class A Boolean up (init = true); event fail; transition fail: up -> up := false; end\n"
"""A part that fails."""


def kind(small, largest):
    """Enters a kind: it is called as its function, whose text says what N counts; with the N that instructions are counted
    at, and the largest N that the limits allow, or that a run ends at in time."""
    def entered(function):
        KINDS[function.__name__.strip("_")] = Kind(function, function.__doc__, small, largest)
        return function
    return entered


def job(verb, model, other=None, *more):
    return Job(verb, model, other, more)


def block(*lines):
    return "block B\n" + "".join(lines) + "end\n"


def each(form, numbers, between=", "):
    """The form with each number in its place."""
    return between.join(form.replace("#", str(n)) for n in numbers)


def lost(verb, model):
    """A command that asks for the observer `lost`."""
    return job(verb, model, None, "--observer", "lost")


# Reading

STATE = " Boolean s (init = true);\n"


@kind(4000, 900000)
def tokens(n):
    """+ s N times, in one expression"""
    return job("check", "domain N [0, 255]\n" + block(" N s (init = 0); observer Integer o = s", "+s" * n, ";\n"))


@kind(4000, 322000)
def comments(n):
    """comments of both forms"""
    return job("check", "/* a **/ //x\n" * n + block(STATE))


@kind(4000, 690000)
def unclosed(n):
    """beginnings of a comment that does not end"""
    return job("check", block(STATE) + "/ * /*" * n)


@kind(100, 37500)
def brackets(n):
    """observers in 40 brackets"""
    return job("check", block(*("observer Boolean o%d = %strue%s;\n" % (i, "(" * 40, ")" * 40) for i in range(n))))


@kind(20, 12320)
def eqnest(n):
    """observers of 40 equations, one in the other"""
    return job("check", block(STATE, *("observer Boolean o%d = %ss%s;\n" % (i, "(" * 40, " == s)" * 40) for i in range(n))))


@kind(2000, 134500)
def badlast(n):
    """members before a mistake of syntax"""
    return job("check", block(each(" Boolean s# (init = true);\n", range(n), ""), " Boolean "))


@kind(4000, 239000)
def items(n):
    """empty classes"""
    return job("check", each("class A# end\n", range(n), "") + block(STATE))


@kind(10, 3800)
def domains(n):
    """domains of 200 symbols that they share"""
    symbols = each("a#", range(200))
    return job("check", each("domain D# {" + symbols + "}\n", range(n), "") + block(STATE))


@kind(4000, 478000)
def bigdomain(n):
    """symbols of one domain"""
    return job("check", "domain D {" + each("a#", range(n)) + "}\n" + block(STATE))


@kind(2000, 32768)
def widevars(n):
    """variables of a domain of 256 symbols"""
    return job("check", "domain D {" + each("a#", range(256)) + "}\n" + block(" D ", each("s#", range(n)), " (init = a255);\n"))


# Units

@kind(300, 140000)
def ringclasses(n):
    """classes in a ring, each with an instance of the next"""
    return job("check", "".join("class A%d A%d x; end\n" % (i, (i + 1) % n) for i in range(n)) + block(STATE))


@kind(200, 11585)
def chain(n):
    """unused classes, each extends the one before"""
    first = "class A0 Boolean s0 (init = true); end\n"
    rest = ("class A%d extends A%d; Boolean s%d (init = true); end\n" % (i, i - 1, i) for i in range(1, n))
    return job("check", first + "".join(rest) + block(STATE))


@kind(1000, 187000)
def manynames(n):
    """names of a class that N / 2 classes extend"""
    base = "class A Boolean " + each("a#", range(n)) + " (init = true); end\n"
    return job("check", base + each("class D# extends A; end\n", range(n // 2), "") + block(STATE))


@kind(500, 120000)
def twobases(n):
    """names of a class that N / 4 classes extend, with another one"""
    base = "class A Boolean " + each("a#", range(n)) + " (init = true); end\nclass Z end\n"
    return job("check", base + each("class D# extends A; extends Z; end\n", range(n // 4), "") + block(STATE))


@kind(1000, 80000)
def settings(n):
    """settings of one instance, one for each of N parameters"""
    base = "class C\n" + each("  parameter Boolean p# = true;\n", range(n), "") + "end\n"
    return job("check", base + block("  C c (", each("p# = false", range(n)), ");\n"))


@kind(200, 16383)
def setunits(n):
    """instances of one declaration with N settings of one target"""
    base = "class C parameter Boolean p = true; end\n"
    return job("check", base + block(" C ", each("c#", range(n)), " (", ", ".join(["p = true"] * n), ");\n"))


@kind(4, 16320)
def deepalias(n):
    """instances 61 units deep, each with 60 aliases of the unit above"""
    base = "class C\n" + each(" embeds owner.c0 as q#;", range(60), "") + "\nend\n"
    return job("check", base + block(each("block b# ", range(60), ""), " C ", each("c#", range(n)), ";", " end" * 60, "\n"))


@kind(4, 16320)
def deepparams(n):
    """instances 61 units deep, each with 60 parameters"""
    base = "class C\n" + each(" parameter Boolean q# = true;", range(60), "") + "\nend\n"
    return job("check", base + block(each("block b# ", range(60), ""), " C ", each("c#", range(n)), ";", " end" * 60, "\n"))


@kind(100, 16382)
def longpath(n):
    """instances of a class with an alias along a path of 10 N names"""
    base = "class C\n embeds main.x" + ".a" * (10 * n) + " as q;\nend\n"
    return job("check", base + block(" block x embeds main.x as a; end\n C ", each("c#", range(n)), ";\n"))


@kind(100, 16382)
def exprpath(n):
    """instances of a class with a flow along a path of 10 N names"""
    base = "class C\n Boolean f (reset = false); assertion f := main.x" + ".a" * (10 * n) + ".s;\nend\n"
    own = " block x embeds main.x as a; Boolean s (init = true); end\n"
    return job("check", base + block(own, " C ", each("c#", range(n)), ";\n"))


@kind(200, 8000)
def lostclones(n):
    """instances with N / 4 clones of nothing each"""
    return job("check", "class C\n" + each(" clones nothing as q#;\n", range(n // 4), "") + "end\n" + block(" C ", each("c#", range(n)), ";\n"))


@kind(1000, 32768)
def initbig(n):
    """names of one declaration whose init has N operands"""
    return job("check", block("  Boolean ", each("x#", range(n)), " (init = ", " and ".join(["true"] * n), ");\n"))


@kind(200, 16350)
def initshare(n):
    """instances of a class whose init has 100 operands"""
    return job("check", "class C Boolean s (init = " + " and ".join(["true"] * 100) + "); end\n" + block(" C ", each("c#", range(n)), ";\n"))


@kind(100, 6900)
def nested(n):
    """operands of 100 tests, one in the other, that assign nothing"""
    tests = ("if %s then " % " and ".join(["s"] * n)) * 100
    return job("check", block(STATE, "  event e;\n  transition e: s -> ", tests, "skip;\n"))


@kind(1000, 190000)
def skips(n):
    """operands of a test round N tests that assign nothing"""
    test = "if " + " and ".join(["s"] * n) + " then { " + "if s then skip; " * n + "}\n"
    return job("check", block(STATE, "  event e;\n  transition e: s -> ", test))


@kind(1000, 16384)
def events(n):
    """events of one block"""
    return job("check", block(STATE, "  event ", each("e#", range(n)), ";\n  transition\n", each("    e#: not s -> skip;\n", range(n), "")))


@kind(10, 960)
def ways256(n):
    """events of 256 ways"""
    ways = "".join(("e%d: s -> skip;\n" % i) * 256 for i in range(n))
    return job("check", block(STATE, " event ", each("e#", range(n)), ";\n transition\n", ways))


@kind(20, 9900)
def syncparts(n):
    """events, each a synchronisation of 60 others"""
    parts = " & ".join("?a%d" % j for j in range(60))
    names = each("a#", range(60)) + ", " + each("e#", range(n))
    ways = each("a#: s -> skip;\n", range(60), "") + each("e#: " + parts + ";\n", range(n), "")
    return job("check", block(STATE, " event ", names, ";\n transition\n", ways))


@kind(200, 15000)
def flatname(n):
    """bytes of a unit's name that is written N times"""
    names = " and ".join(["s"] * n)
    return job("flat", block(" block ", "u" * n, "\n", STATE, " Boolean f (reset = false); assertion f := ", names, ";\n end\n"))


@kind(500, 32768)
def flatdomain(n):
    """variables of a domain of 256 long symbols"""
    symbols = ", ".join("a%020d" % i for i in range(256))
    return job("flat", "domain D {" + symbols + "}\n" + block(" D ", each("s#", range(n)), " (init = a%020d);\n" % 255))


# Runs

def row(n):
    """N units in a row, each lit by the one before while it works."""
    part = ("class C\n Boolean w (init = true); Boolean i, o (reset = false); event f, g;\n"
            " transition f: w -> w := false; g: not w -> w := true;\n assertion o := i and w;\nend\n")
    links = "".join(" c%d.i := c%d.o;\n" % (i, i - 1) for i in range(1, n))
    return part + block(" C ", each("c#", range(n)), ";\n observer Boolean lost = not c%d.o;\n assertion c0.i := true;\n" % (n - 1), links)


@kind(4, 5000)
def allsteps(n):
    """steps that each change 16,382 flows"""
    return job("explain", row(8191), "fire c0.f\nfire c0.g\n" * (n // 2), "--observer", "lost")


@kind(100, 80400)
def laststeps(n):
    """steps of the last of 8,191 units"""
    return job("replay", row(8191), "fire c8190.f\nfire c8190.g\n" * (n // 2))


@kind(4000, 400000)
def longname(n):
    """bytes of the name of a unit with N / 8 events"""
    names = each("e#", range(min(n // 8, 16384)))
    return job("replay", block("  block ", "a" * n, "\n    event ", names, ";\n  end\n"), "")


@kind(500, 16384)
def deepsync(n):
    """synchronisations, each of the one before"""
    ways = "".join("e%d: !e%d;\n" % (i, i - 1) for i in range(1, n))
    return job("replay", block(STATE, " event ", each("e#", range(n)), ";\n transition\n e0: s -> skip;\n", ways), "fire e%d\n" % (n - 1))


@kind(4, 2000)
def guards(n):
    """steps that turn a variable which 8,192 guards of 60 operands name"""
    guard = "s and " + " and ".join(["r"] * 58) + " and s"
    ways = each(" e#: " + guard + " -> skip;\n", range(8192), "")
    names = " Boolean r (init = true);\n event a, " + each("e#", range(8192))
    return job("explain", block(STATE, names, ";\n transition a: true -> s := not s;\n", ways), "fire a\n" * n)


@kind(2, 2000)
def broadcast(n):
    """steps of a synchronisation of 8,192 parts"""
    states = " Boolean " + each("s#", range(8192)) + " (init = true);\n event z, " + each("e#", range(8192)) + ";\n transition\n"
    ways = each(" e#: true -> s# := not s#;\n", range(8192), "") + " z: " + each("?e#", range(8192), " & ") + ";\n"
    return job("explain", block(states, ways), "fire z\n" * n)


@kind(4, 100000)
def observe(n):
    """steps under an observer that counts 16,000 states"""
    states = each("s#", range(16000))
    counts = " observer Boolean o = count(" + states + ") >= 2;\n"
    return job("replay", block(" Boolean ", states, " (init = true);\n event e; transition e: true -> s0 := not s0;\n", counts), "fire e\n" * n)


@kind(4, 100000)
def observers(n):
    """steps under 30,000 observers of one state"""
    many = each(" observer Boolean o# = s and not s;\n", range(30000), "")
    return job("replay", block(STATE, " event e; transition e: true -> s := not s;\n", many), "fire e\n" * n)


def ready(guard):
    """16,384 events of one block with this guard."""
    return block(STATE, " event ", each("e#", range(16384)), ";\n transition", each(" e#: " + guard + " -> skip;\n", range(16384), ""))


@kind(500, 87250)
def labels(n):
    """lines that fire the last of 16,384 events"""
    return job("replay", ready("s"), "fire e16383\n" * n)


@kind(500, 131072)
def enabled(n):
    """lines `enabled` over 16,384 events that cannot fire"""
    return job("replay", ready("not s"), "enabled\n" * n)


@kind(100, 65400)
def alternate(n):
    """pairs of `fire` and `enabled` over 16,384 events of which one can fire"""
    return job("replay", ready("not s").replace(" e0: not s ", " e0: s "), "fire e0\nenabled\n" * n)


@kind(2, 2000)
def enabledout(n):
    """lines `enabled` over 16,384 events that can fire: 80 kB a line"""
    return job("replay", ready("s"), "enabled\n" * n)


@kind(1000, 90000)
def observerat(n):
    """observers, of which the last is asked for"""
    return job("explain", block(STATE, each(" observer Boolean o# = s;\n", range(n), "")), "", "--observer", "o%d" % (n - 1))


# Sets of values

TWO = "domain N [0, 1]\n"


def both(n):
    """N flows with the values 0 and 1."""
    return " N " + each("x#", range(n)) + " (reset = 0);\n", each("    x# := 0; x# := 1;\n", range(n), "")


def weighted(n):
    """The sum of N flows, each times another power of two."""
    return " + ".join("x%d * %d" % (i, 1 << i) for i in range(n))


@kind(8, 23)
def sum_(n):
    """flows with two values each, in a weighted sum"""
    flows, values = both(n)
    return job("replay", TWO + block(flows, " N y (reset = 0);\n  assertion\n", values, "    y := ", weighted(n), ";\n"), "")


@kind(1, 4000)
def sums(n):
    """weighted sums of 22 flows with two values each"""
    flows, values = both(22)
    many = each("    y# := " + weighted(22) + ";\n", range(n), "")
    return job("replay", TWO + block(flows, " N ", each("y#", range(n)), " (reset = 0);\n  assertion\n", values, many), "")


@kind(1, 100)
def longsum(n):
    """ones that are added to a weighted sum of 21 flows with two values each"""
    flows, values = both(21)
    return job("replay", TWO + block(flows, " N y (reset = 0);\n  assertion\n", values, "    y := ", weighted(21), " + 1" * n, ";\n"), "")


@kind(10, 200)
def levels(n):
    """flows of 256 values in a sum"""
    flows = " N " + each("x#", range(n)) + " (reset = 0);\n N y (reset = 0);\n"
    return job("fragment", "domain N [0, 255]\n" + block(flows, "  assertion y := ", each("x#", range(n), " + "), ";\n"))


@kind(2, 1000)
def countup(n):
    """flows that gather 256 values each, two and two compared"""
    rules = "".join(" x%d := 0; x%d := min(255, x%d + 1);\n x%d := min(x%d, x%d);\n" % (i, i, i, i, i, (i + 1) % n) for i in range(n))
    return job("replay", "domain N [0, 255]\n" + block(" N ", each("x#", range(n)), " (reset = 0);\n assertion\n", rules), "")


@kind(1000, 31300)
def minima(n):
    """minima of two variables of 64 values"""
    flows = " N a, b (init = 0);\n N " + each("z#", range(n)) + " (reset = 0);\n  assertion\n"
    return job("fragment", "domain N [0, 63]\n" + block(flows, each("    z# := min(a, b);\n", range(n), "")))


@kind(40, 680)
def cubic(n):
    """flows, each the next one or the conjunction of all"""
    everything = each("x#", range(n), " and ")
    rules = "".join("    x%d := x%d or (%s);\n" % (i, i + 1, everything) for i in range(n - 1)) + "    x%d := s or (%s);\n" % (n - 1, everything)
    return job("replay", block(STATE, " Boolean ", each("x#", range(n)), " (reset = false);\n  assertion\n", rules), "")


@kind(500, 21500)
def dense(n):
    """flows, each of 20 earlier ones"""
    chance = random.Random(1)
    rules = "".join(" x%d := %s;\n" % (i, " or ".join("x%d" % chance.randrange(i) for _ in range(20))) for i in range(1, n))
    return job("replay", block(STATE, " Boolean ", each("x#", range(n)), " (reset = false);\n assertion x0 := s;\n", rules), "")


def wide(n, wides, expression):
    """A row of N flows, and flows of an expression of all of them."""
    flows = " Boolean " + each("x#", range(n)) + ", " + each("y#", range(wides)) + " (reset = false);\n"
    rules = "".join(" x%d := x%d;\n" % (i, i - 1) for i in range(1, n)) + each(" y# := " + expression + ";\n", range(wides), "")
    return block(STATE, " event e; transition e: true -> s := not s;\n", flows, " assertion x0 := s;\n", rules)


@kind(50, 2000)
def wideexplain(n):
    """flows in a row, and 400 conjunctions of all of them"""
    return job("explain", wide(n, 400, each("x#", range(n - 1, -1, -1), " and ")), "")


@kind(50, 2000)
def widecounts(n):
    """flows in a row, and 100 counts of all of them"""
    return job("explain", wide(n, 100, "count(" + each("x#", range(n)) + ") >= 2"), "")


@kind(1, 2000)
def widesteps(n):
    """steps over 2,000 flows in a row and 200 counts of all of them"""
    return job("explain", wide(2000, 200, "count(" + each("x#", range(2000)) + ") >= 2"), "fire e\n" * n)


@kind(2, 100000)
def ringsteps(n):
    """steps of a state that comes into a ring of 4,000 flows"""
    rules = " x0 := x3999 or s;\n" + "".join(" x%d := x%d;\n" % (i, i - 1) for i in range(1, 4000))
    turning = " event e; transition e: true -> s := not s;\n"
    return job("explain", block(STATE, " Boolean ", each("x#", range(4000)), " (reset = false);\n", turning, " assertion", rules), "fire e\n" * n)


# Trees of modes, gate tables

@kind(10, 16384)
def modes256(n):
    """events that each can lead from each of 256 modes"""
    ways = each(" e#: true -> m := if m < 255 then m + 1 else m;\n", range(n), "")
    return job("fragment", "domain N [0, 255]\n" + block(" N m (init = 0);\n event ", each("e#", range(n)), "; transition", ways))


@kind(500, 16384)
def modesguard(n):
    """events of 256 modes in a row, with guards of 19 operands"""
    ways = "".join(" e%d: %s -> m := %d;\n" % (i, " and ".join(["m == %d" % (i % 255)] * 19), i % 255 + 1) for i in range(n))
    return job("fragment", "domain N [0, 255]\n" + block(" N m (init = 0);\n event ", each("e#", range(n)), "; transition", ways))


@kind(100, 30000)
def ringeq(n):
    """flows in a ring into which one event comes"""
    rules = "".join(" x%d := x%d;\n" % (i, i - 1) for i in range(1, n))
    flows = " A c;\n Boolean " + each("x#", range(n)) + " (reset = false);\n observer Boolean lost = not x0;\n"
    return lost("equations", STATION + block(flows, " assertion x0 := c.up or x%d;\n" % (n - 1), rules))


@kind(50, 2000)
def rings(n):
    """stations in rings of 50"""
    part = ("class S Boolean s (init = true); Boolean l, r, o (reset = false); event e; transition e: s -> s := false;"
            " assertion o := s and (l or r); end\n")
    lines = [each(" S s%d_#;\n" % k, range(50), "") for k in range(n // 50)] + [" observer Boolean lost = not s0_25.o;\n assertion\n"]
    for k in range(n // 50):
        for i in range(50):
            left = "true" if i == 0 else "s%d_%d.o" % (k, i - 1)
            lines.append(" s%d_%d.l := %s; s%d_%d.r := s%d_%d.o;\n" % (k, i, left, k, i, k, (i + 1) % 50))
    return lost("equations", part + block(*lines))


@kind(50, 16383)
def gates(n):
    """units with flows of 60 values"""
    part = ("domain N [0, 59]\nclass C N m (init = 0); N f (reset = 0); event e; transition e: m == 0 -> m := 1;\n"
            " assertion f := if m == 0 then 0 else 59; end\n")
    return lost("equations", part + block(" C ", each("c#", range(n)), ";\n observer Boolean lost = c0.f == 59;\n"))


# Cuts

@kind(200, 1020)
def badorder(n):
    """pairs of which one fails whole; all first parts are declared before all second ones"""
    failed = each("not a#.up and not b#.up", range(n), " or ")
    return lost("cuts", STATION + block(" A ", each("a#", range(n)), ", ", each("b#", range(n)), ";\n observer Boolean lost = ", failed, ";\n"))


@kind(500, 2000)
def gapcuts(n):
    """parts that nothing reads, between the first and the second parts of 10 pairs"""
    failed = each("not a#.up and not b#.up", range(10), " or ")
    parts = " A " + ", ".join((each("a#", range(10)), each("z#", range(n)), each("b#", range(10)))) + ";\n"
    return lost("cuts", STATION + block(parts, " observer Boolean lost = ", failed, ";\n"))


@kind(20, 1000)
def pairs(n):
    """parts of each of two groups, of which one has to fail: N * N cuts"""
    failed = " and ".join("(" + each("not %s#.up" % group, range(n), " or ") + ")" for group in "ab")
    return lost("cuts", STATION + block(" A ", each("a#", range(n)), ", ", each("b#", range(n)), ";\n observer Boolean lost = ", failed, ";\n"))


@kind(70, 1000)
def checkmiss(n):
    """parts of two such groups, and a list of the last 4,096 of their cuts"""
    cuts = ["{a%d.fail, b%d.fail}\n" % (i, j) for i in range(n) for j in range(n)][-4096:]
    return pairs(n)._replace(verb="checkcuts", other="".join(cuts))


@kind(10, 200)
def pairsmod(n):
    """parts of two such groups, by modules"""
    return pairs(n)._replace(verb="modules")


@kind(10, 300)
def modpairs(n):
    """units of two failures each, in two groups of which one has to fail"""
    part = ("class M Boolean u (init = true); Boolean v (init = true); event e, f;"
            " transition e: u -> u := false; f: v -> v := false; end\n")
    half = range(n // 2)
    failed = " and ".join("(" + each("not (%s#.u and %s#.v)" % (group, group), half, " or ") + ")" for group in "ab")
    return lost("modules", part + block(" M ", each("a#", half), ", ", each("b#", half), ";\n observer Boolean lost = ", failed, ";\n"))


def staged(numbers, before=""):
    """Stages of two parts each, one behind the other, declared in the order of the numbers."""
    last = max(numbers) + 1
    flows = each("g#", range(last + 1))
    rules = "".join("    g%d := g%d and (a%d.up or b%d.up);\n" % (k + 1, k, k, k) for k in range(last))
    own = " Boolean " + flows + " (reset = false);\n  observer Boolean lost = not g%d;\n  assertion\n    g0 := true;\n" % last
    return STATION + block(before, each("  A a#; A b#;\n", numbers, ""), own, rules)


@kind(100, 1020)
def stages(n):
    """stages of two parts, one behind the other, declared from the last to the first"""
    return lost("cuts", staged(range(n - 1, -1, -1)))


@kind(100, 1020)
def stagesfirst(n):
    """stages of two parts, declared from the first to the last"""
    return lost("cuts", staged(range(n)))


@kind(50, 350)
def inturn(n):
    """such stages, and a unit of two states whose events are declared in turn, which nothing reads"""
    part = ("domain T {OK, W, KO}\nclass U T a (init = OK); Boolean b (init = true); event a1, b1, a2;\n"
            " transition a1: a == OK -> a := W; b1: b -> b := false; a2: a == W -> a := KO; end\n")
    return lost("cuts", part + staged(range(n), " U unread;\n"))


@kind(50, 970)
def unread(n):
    """such stages, and a unit of 66 modes that nothing reads"""
    ways = each(" e#: m == # -> m := # + 1;\n", range(65), "")
    part = "domain N [0, 65]\nclass U N m (init = 0); event " + each("e#", range(65)) + "; transition" + ways + "end\n"
    return lost("cuts", part + staged(range(n), " U unread;\n"))


@kind(200, 2040)
def series(n):
    """parts in a row, each flow of the one before"""
    rules = "".join(" g%d := g%d and a%d.up;\n" % (k, k - 1, k) for k in range(1, n))
    flows = " Boolean " + each("g#", range(n)) + " (reset = false);\n observer Boolean lost = not g%d;\n assertion g0 := a0.up;\n" % (n - 1)
    return lost("cuts", STATION + block(" A ", each("a#", range(n)), ";\n", flows, rules))


@kind(4, 64)
def voters(n):
    """groups of 32 parts, of which any two in one group fail"""
    rules = "".join("    g%d := count(%s) >= 2;\n" % (g, each("not c%d_#.up" % g, range(32))) for g in range(n))
    parts = "".join("  A %s;\n" % each("c%d_#" % g, range(32)) for g in range(n))
    flows = "  Boolean " + each("g#", range(n)) + " (reset = false);\n  observer Boolean lost = " + each("g#", range(n), " or ") + ";\n  assertion\n"
    return lost("cuts", STATION + block(parts, flows, rules))


@kind(20, 200)
def votes(n):
    """parts in four groups, counted in flows of three values (0, 1, 2 or more) that are added; two have to fail"""
    groups = [range(k * n // 4, (k + 1) * n // 4) for k in range(4)]
    rules = "".join("    g%d := min(2, count(%s));\n" % (k, each("not c#.up", group)) for k, group in enumerate(groups))
    flows = "  N g0, g1, g2, g3 (reset = 0);\n  observer Boolean lost = g0 + g1 + g2 + g3 >= 2;\n  assertion\n"
    return lost("cuts", "domain N [0, 2]\n" + STATION + block("  A ", each("c#", range(n)), ";\n", flows, rules))


@kind(8, 16)
def kofn(n):
    """parts of which half have to fail"""
    count = "count(" + each("not a#.up", range(n)) + ")"
    return lost("cuts", STATION + block(" A ", each("a#", range(n)), ";\n observer Boolean lost = %s >= %d;\n" % (count, n // 2)))


@kind(6, 12)
def kofnmod(n):
    """such parts, by modules"""
    return kofn(n)._replace(verb="modules")


@kind(50, 1000)
def conflicts(n):
    """flows with two writers each, both of which have to fail for them to differ"""
    rules = "".join(" f%d := a%d.up; f%d := b%d.up;\n" % (i, i, i, i) for i in range(n))
    flows = " Boolean " + each("f#", range(n)) + " (reset = false);\n observer Boolean lost = not f0;\n assertion"
    return lost("cuts", STATION + block(" A ", each("a#", range(n)), ", ", each("b#", range(n)), ";\n", flows, rules))


@kind(4, 20)
def bridge(n):
    """rungs of a ladder of two feeders and cross ties: flows in loops"""
    flows = " Boolean " + each("x#", range(n + 1)) + ", " + each("y#", range(n + 1)) + " (reset = false);\n observer Boolean lost = not x%d;\n" % n
    tie = " x%d := x%d and l%d.up or y%d and t%d.up; y%d := y%d and r%d.up or x%d and t%d.up;\n"
    rules = "".join(tie % (i + 1, i, i, i + 1, i, i + 1, i, i, i + 1, i) for i in range(n))
    parts = " A " + ", ".join(each(name + "#", range(n)) for name in "lrt") + ";\n"
    return lost("cuts", STATION + block(parts, flows, " assertion x0 := true; y0 := true;\n", rules))


@kind(10, 30)
def bigtree(n):
    """trees of 60 edges in a row, of two neighbours the last modes"""
    ways = "".join(" e%d: m == %d -> m := %d;\n" % (i, i, i + 1) for i in range(60))
    part = "domain N [0, 60]\nclass C N m (init = 0); event " + each("e#", range(60)) + "; transition" + ways + "end\n"
    failed = " or ".join("c%d.m == 60 and c%d.m == 60" % (i, i + 1) for i in range(n - 1))
    return lost("cuts", part + block(" C ", each("c#", range(n)), ";\n observer Boolean lost = ", failed, ";\n"))


@kind(20, 500)
def interleaved(n):
    """units of two states whose events are declared in turn"""
    part = ("domain T {OK, W, KO}\nclass C T a (init = OK); T b (init = OK); event a1, b1, a2, b2;\n transition a1: a == OK -> a := W;"
            " b1: b == OK -> b := W; a2: a == W -> a := KO; b2: b == W -> b := KO; end\n")
    failed = " or ".join("c%d.a == KO and c%d.b == KO" % (i, i + 1) for i in range(n - 1))
    return lost("cuts", part + block(" C ", each("c#", range(n)), ";\n observer Boolean lost = ", failed, ";\n"))


@kind(50, 1000)
def idle(n):
    """units with 15 idle state variables each, where two neighbours have to fail"""
    part = "class A Boolean up (init = true); " + each("Boolean i# (init = true); ", range(15), "")
    part += "event fail; transition fail: up -> up := false; end\n"
    failed = " or ".join("not c%d.up and not c%d.up" % (i, i + 1) for i in range(n - 1))
    return lost("cuts", part + block(" A ", each("c#", range(n)), ";\n observer Boolean lost = ", failed, ";\n"))


@kind(50, 700)
def neighbours(n):
    """units with trees of two or three edges, where two neighbours have to fail"""
    part = ("domain S {OK, W, D, KO}\ndomain S3 {OK, W, KO}\n"
            "class A\n S m (init = OK);\n Boolean up (reset = false);\n event a, b, c;\n"
            " transition a: m == OK -> m := W; b: m == W -> m := D; c: m == D -> m := KO;\n assertion up := m != KO;\nend\n"
            "class B3\n S3 m (init = OK);\n Boolean up (reset = false);\n event a, b;\n"
            " transition a: m == OK -> m := W; b: m == W -> m := KO;\n assertion up := m != KO;\nend\n")
    units = "".join("  %s c%d;\n" % ("B3" if i % 7 == 6 else "A", i) for i in range(n))
    failed = " or ".join("(not c%d.up and not c%d.up)" % (i, i + 1) for i in range(n - 1))
    return lost("cuts", part + block(units, "  observer Boolean lost = ", failed, ";\n"))


@kind(1000, 100000)
def forms(n):
    """short forms (a power of ten) of 40 events each, among 2,000 events, and N / 10 units without events"""
    groups = len(str(n)) - 1
    both_ = 40 - groups
    tens = ("(" + " or ".join("not w%d" % (both_ + 10 * g + k) for k in range(10)) + ")" for g in range(groups))
    failed = " and ".join([*("not w%d" % i for i in range(both_)), *tens])
    states = "  C " + each("u#", range(max(1, n // 10))) + ";\n  Boolean " + each("w#", range(2000)) + " (init = true);\n"
    ways = "  event " + each("e#", range(2000)) + ";\n  transition\n" + each("    e#: w# -> w# := false;\n", range(2000), "")
    return lost("modules", "class C Boolean w (init = true); end\n" + block(states, ways, "  observer Boolean lost = ", failed, ";\n"))


@kind(500, 8000)
def dropall(n):
    """events that are dropped by name"""
    names = ",".join("a%d.fail" % i for i in range(1, n))
    asked = lost("cuts", STATION + block(" A ", each("a#", range(n)), ";\n observer Boolean lost = not a0.up;\n"))
    return asked._replace(more=(*asked.more, "--drop", names))


def write_into(folder, name, wanted):
    """Writes the files of a job, and answers the words for the program."""
    os.makedirs(folder, exist_ok=True)
    words = [wanted.verb, os.path.join(folder, name + ".alt")]
    if wanted.other is not None:
        words.append(os.path.join(folder, name + (".list" if wanted.verb == "checkcuts" else ".script")))
    for path, text in zip(words[1:], (wanted.model, wanted.other)):
        with open(path, "w", encoding="ascii") as file:
            file.write(text)
    return [*words, *wanted.more]


def work(words):
    if words.list:
        if words.kind is not None:
            raise command.NoUse("--list stands alone")
        for name, known in sorted(KINDS.items()):
            command.write("%-12s %s\n" % (name, known.about))
        return
    if words.n is None:
        raise command.NoUse("a kind takes a number N")
    wanted = KINDS[words.kind].write(words.n)
    if words.into is None:
        command.write(wanted.model)
    else:
        command.write(" ".join(write_into(words.into, "%s-%d" % (words.kind, words.n), wanted)) + "\n")


def declare(parser):
    parser.add_argument("kind", metavar="KIND", choices=sorted(KINDS), nargs="?")
    parser.add_argument("n", metavar="N", type=int, nargs="?")
    parser.add_argument("--into", metavar="FOLDER")
    parser.add_argument("--list", action="store_true")
    return parser


if __name__ == "__main__":
    command.run(__doc__, declare, work)
