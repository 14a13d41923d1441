"""What a new user meets: twelve models, and typical mistakes in each.

Tried is that the models have the cuts that were found by hand, that each mistake gets the line that is written here, and
that the section which `./altarica --explain` prints for this line has the words that mend the mistake. Where a mend is
written here, as the section has it, the mended model has the cuts by hand again. Where a mistake is not refused, the line
is the first of a wrong list, and where words of `tools/lint MODEL --observer O` are written here, lint says them. Where words of
`tools/why` are written here, it says them of the refusal.
"""

import os
import pathlib
import subprocess
import tempfile
from collections import namedtuple

TRIAL = pathlib.Path("tests/trial")
PROGRAM = os.environ["ALTARICA"]
DRY = ("cuts", "--observer", "no_flow")
NO_TRIP = ("cuts", "--observer", "no_trip")
MENDS = ",".join(f"{part}.mend" for part in "grid diesel tie_12 tie_23 tie_31 b1 b2 b3".split())
DARK = ("cuts", "--observer", "dark", "--drop", MENDS)

FLOW = ("cuts", "--observer", "loss_of_flow")
LOAD = ("cuts", "--observer", "load1_lost")
BOTH = ("cuts", "--observer", "both_lost")
TRIP = ("cuts", "--observer", "no_trip")
SPURIOUS = ("cuts", "--observer", "spurious")

NO_FLOW = ("cuts", "--observer", "no_flow")
C2_DRY = ("cuts", "--observer", "c2_dry")
DEMANDED = ("cuts", "--main", "Demanded", "--observer", "no_trip")
CALM = ("cuts", "--main", "Calm", "--observer", "spurious_trip")

Mistake = namedtuple("Mistake", "what changes words line mend mended lint why", defaults=(None, None, None))
"""changes: pairs of a text of the model and what is written in its place, or the text of a script; line: the program's
answer, its last line for a script and else its first; mend: words of the section; mended: changes of the right model, as
the section has them; lint: words of lint on the model with the mistake; why: words of `why` on it."""

FILES = {"monitor": "tests/models/howto/monitor.alt", "monitor,": "tests/models/howto/monitor.alt",
         "spread": "tests/models/howto/spread.alt", "pumps": "tests/models/howto/start_or_run.alt", "protection": "tests/models/howto/protection.alt"}


def fail(parts):
    """The failures of these parts as a line."""
    return ", ".join(f"{part}.fail" for part in parts.split())


TRAIN = ("suction.stick", "discharge.stick", "pump.fail_to_start", "pump.fail_to_run", "bus.fail")
PAIRS = ("g1 g2", "g1 b3", "b1 g2", "b1 b3")
CUTS = {
    "pumps": (FLOW, ["tank.fail", *(f"a.{x}, b.{y}" for x in TRAIN for y in TRAIN)]),
    "protection": (TRIP, [f"process.demand, {rest}" for rest in (
        "supply.fail", "s1.die, s2.die", "s1.die, s3.die", "s2.die, s3.die", "voter.go_mute", "a.jam, b.jam")]),
    "protection without demand": (SPURIOUS, [
        "s1.stick_high, s2.stick_high", "s1.stick_high, s3.stick_high", "s2.stick_high, s3.stick_high", "voter.go_loud",
        "a.fall_open", "b.fall_open"]),
    "ring": (LOAD, [fail(parts) for parts in ("b2", *PAIRS, "b1 t23", "t12 b3", "t12 t23", *(
        f"{two} {last}" for two in ("g1 t23", "g2 t12") for last in ("t34", "b4", "t41")))]),
    "ring with both loads": (BOTH, [fail(parts) for parts in (
        *PAIRS, *(f"{one} {two}" for one in ("g1", "b1") for two in ("b2 t34", "t23 b4", "t23 t34")),
        *(f"{one} {two}" for one in ("g2", "b3") for two in ("b2 t41", "t12 b4", "t12 t41")),
        "b2 b4", "b2 t41 t34", "b4 t12 t23", "t12 t23 t34 t41")]),
    "trains": (DRY, ["tank.fail", *(f"{a}.fail, {b}.fail" for a in ("bus_a", "a.valve", "a.pump", "a.check")
                                    for b in ("bus_b", "b.valve", "b.pump", "b.check"))]),
    "voter": (NO_TRIP, ["voter.fail", "s1.fail_low, s2.fail_low", "s1.fail_low, s3.fail_low", "s2.fail_low, s3.fail_low"]),
    "loop": (DARK, ["b2.fail", "b1.fail, b3.fail", "tie_12.fail, tie_23.fail", "grid.fail, diesel.fail", "b1.fail, tie_23.fail",
                    "tie_12.fail, b3.fail", "b1.fail, diesel.fail", "grid.fail, b3.fail", "grid.fail, tie_23.fail, tie_31.fail",
                    "diesel.fail, tie_12.fail, tie_31.fail"]),
}

LEGS = ("isolation.close", "pump.fail_to_start", "pump.fail_to_run", "check.stick")
TOWERS = ("fan", "pump")
CUTS |= {
    "injection": (NO_FLOW, ["tank.fail", "bus.fail", "shock.fail", "grid.fail, diesel.fail_to_start", "grid.fail, diesel.fail_to_run",
                            *(f"a.{x}, b.{y}" for x in LEGS for y in LEGS)]),
    "cooling": (C2_DRY, ["return_main.fail", "c2.inlet.fail", "s12.leak", "s23.leak", "s34.leak", "s23.stick, s34.stick",
                         "s23.stick, s41.stick", "s23.stick, s41.leak", *(f"a.{x}.fail, b.{y}.fail" for x in TOWERS for y in TOWERS), *(
                             f"{tower}.{x}.fail, {rest}" for x in TOWERS for tower, rest in (
                                 ("b", "s41.leak"), ("a", "s12.stick, s23.stick"), ("b", "s12.stick, s34.stick"),
                                 ("b", "s12.stick, s41.stick")))]),
    "channel": (DEMANDED, ["supply.lose", "voter.stick_off", "s1.go_silent, s2.go_silent", "s1.go_silent, s3.go_silent",
                           "s2.go_silent, s3.go_silent", "a.stick, b.stick"]),
    "channel without demand": (CALM, ["s1.go_high, s2.go_high", "s1.go_high, s3.go_high", "s2.go_high, s3.go_high", "voter.fire_itself"]),
}

LOSS = ("cuts", "--observer", "loss")
RUNS = ("a.booster.fail_to_run", "a.feed.fail_to_run", "a.valve.stick_shut", "a.supply.burn")
STARTS = tuple(f"b.{pump}.{event}" for pump in ("booster", "feed") for event in ("fail_to_start", "fail_to_run")) + (
    "b.valve.stick_shut", "b.supply.burn")
ERRONEOUS = ("cuts", "--observer", "erroneous")
SHORTS = ("cuts", "--observer", "dark")
CUTS |= {
    "feed": (LOSS, ["strainer.clog", "bus_1.lose, bus_2.lose", *(f"{x}, {y}" for x in RUNS for y in STARTS),
                    *(f"{x}, bus_2.lose, b.supply.stick" for x in RUNS), *(f"bus_1.lose, a.supply.stick, {y}" for y in STARTS)]),
    "monitor": (ERRONEOUS, ["monitor.fail, software.fail", *(
        f"monitor.fail, {x}.go_wrong, {y}.go_wrong" for x, y in (("l1", "l2"), ("l1", "l3"), ("l2", "l3")))]),
    "monitor, no value": (LOSS, ["supply.fail", "software.fail", *(
        f"{x}.{p}, {y}.{q}" for x, y in (("l1", "l2"), ("l1", "l3"), ("l2", "l3")) for p in ("fall_silent", "go_wrong")
        for q in ("fall_silent", "go_wrong"))]),
    "spread": (SHORTS, ["source.fail", "b1.short", "b4.short", *(f"q41.open, {x}" for x in (
        "q12.open", "q23.open", "q34.open", "b2.short", "b3.short")), "q12.stick, b2.short", "q34.stick, b3.short",
                        "q12.stick, q23.stick, b3.short", "q23.stick, q34.stick, b2.short"]),
}
POWER = "power := mode != BURNT and (normal or (mode == MOVES and other));"
LIVE = "  Boolean live (init = true);\n"
TIED = [(LIVE, "  Boolean ok (init = true);\n  Boolean tie, live (reset = false);\n"), ("lose: live -> live := false;\n",
        "lose: ok -> ok := false;\n  assertion\n    live := ok or tie;\n"), ("    a.demand := true;\n", "    a.demand := true;\n"
        "    if bus_2.live then bus_1.tie := true;\n    if bus_1.live then bus_2.tie := true;\n")]

PUMP = """  Component valve, check;
  block pump
    State state (init = OK);
    Boolean demand (reset = false);
    event fail;
    transition fail: state == OK and demand -> state := FAILED;
  end
"""
DEMAND = "    a.pump.demand := true;\n    b.pump.demand := not a.flow;\n    a.suction :="
ASKING = "    asking := count(s1.mode != LOW, s2.mode != LOW, s3.mode != LOW);"
COUNTED = "".join(f"    if s{n}.mode != LOW then asking := asking + 1;\n" for n in (1, 2, 3))
SUM = "    asking := (s1.mode != LOW) + (s2.mode != LOW) + (s3.mode != LOW);"
LAST = "    b3.from_right := tie_31.ok and b1.live;\nend\n"

OBSERVED = "  observer Boolean loss_of_flow = not a.flow and not b.flow;\n"
HEADER = "  Boolean header (reset = false);\n  observer Boolean loss_of_flow = not header;\n"
SUPPLIED = "    a.supply := tank.works;\n"
READY = "outflow := if mode == READY then inflow and power else false;"
START = "mode == READY -> mode := FAILED_START;"
RUN = "mode == READY -> mode := FAILED_RUN;"
TIES = ("if t12.ok and b1.ok and b2.ok then b1.live", "if t23.ok and b2.ok and b3.ok then b2.live",
        "if t34.ok and b3.ok and b4.ok then b3.live", "if t41.ok and b4.ok and b1.ok then b4.live")
OF_TIE = "    if t41.ok and b4.ok and b1.ok then b4.live :=: b1.live;"
LOST = "  observer Boolean load1_lost = not b2.live;\n"
ALARM = "  Boolean alarm (reset = false);\n  observer Boolean load1_lost = alarm;\n"
FIRST_TIE = "    if t12.ok and"
SENSOR = "vote := power and (mode == STUCK_HIGH or (mode == OK and sees));"

MISTAKES = {
    "pumps": [
        Mistake("two sources of one header", [(OBSERVED, HEADER), (SUPPLIED, "    header := a.flow;\n    header := b.flow;\n" + SUPPLIED)],
                FLOW, "fault: {a.suction.stick}: flow header has two values", "`header := a.flow or b.flow;`",
                [(OBSERVED, HEADER), (SUPPLIED, "    header := a.flow or b.flow;\n" + SUPPLIED)]),
        Mistake("both failures lead to one mode", [("FAILED_START, FAILED_RUN", "FAILED"), (START, START.replace("FAILED_START", "FAILED")),
                (RUN, RUN.replace("FAILED_RUN", "FAILED")), (READY, READY.replace("== READY", "!= FAILED"))],
                FLOW, "outside: S6 at a.pump.mode", "`mode != FAILED` becomes `mode != FAILED and mode != BURNT`",
                [(READY, READY.replace("mode == READY", "mode != FAILED_START and mode != FAILED_RUN"))]),
        Mistake("an assertion tests one of two failure modes", [(READY, READY.replace("== READY", "!= FAILED_START"))], FLOW,
                "{tank.fail}", "`mode != FAILED` where another mode has failed too", None,
                "event a.pump.fail_to_run is in no minimal cut set of loss_of_flow"),
        Mistake("two modes at once", [(READY, "outflow := if mode == FAILED_START and mode == FAILED_RUN then false else inflow and power;")],
                FLOW, "{tank.fail}", "`mode == X and mode == Y`, which is never true", None,
                "event b.pump.fail_to_start is in no minimal cut set of loss_of_flow"),
        Mistake("or for and in the observer", [("not a.flow and not b.flow", "not a.flow or not b.flow")], FLOW, "{tank.fail}",
                "an `or` too many"),
        Mistake("not of the first alone", [("not a.flow and not b.flow", "not a.flow and b.flow")], FLOW, "{a.suction.stick}",
                "an observer", None, "event tank.fail is in no minimal cut set of loss_of_flow"),
        Mistake("no assertion reads the state", [("outflow := inflow and state == OPEN;", "outflow := inflow;")], FLOW, "{tank.fail}",
                "a state that no assertion and no observer reads", None, "state a.suction.state is read by its own transitions alone"),
        Mistake("one tank feeds the other train's output", [("b.supply := tank.works", "b.supply := a.flow")], FLOW, "{tank.fail}",
                "a path leads to the wrong unit", None, "event b.bus.fail is in no minimal cut set of loss_of_flow"),
        Mistake("a wire the wrong way round", [("pump.inflow := suction.outflow;", "suction.outflow := pump.inflow;")], FLOW,
                "fault: {}: assignment 4 at 40:5 does not hold", "its wire is the wrong way round"),
        Mistake("a pump on standby, which a start leaves",
                [("{READY,", "{STANDBY, READY,"), ("(init = READY)", "(init = STANDBY)"), ("event fail_to_start,", "event start, fail_to_start,"),
                 ("    fail_to_start: mode", "    start: mode == STANDBY -> mode := READY;\n    fail_to_start: mode")],
                FLOW, "{}", "at rest, as a pump in STANDBY"),
        Mistake("a pump fails because its bus does", [(READY, READY + "\n    if not power then mode := FAILED_RUN;")], ("check",),
                "rule: L13 at 31:23", "A part that stops because another one failed has not failed itself",
                [(READY, "outflow := inflow and power and mode == READY;")]),
    ],
    "protection": [
        Mistake("two breakers set one flow", [("tripped := a.open or b.open;", "tripped := a.open;\n    tripped := b.open;")], TRIP,
                "fault: {process.demand, a.jam}: flow tripped has two values", "`tripped := a.open or b.open;`"),
        Mistake("an event has the name of a mode", [("STUCK_HIGH, DEAD}", "STUCK_HIGH, die}"), ("mode := DEAD", "mode := die")],
                ("check",), "rule: L10 at 13:32", "A member hides a symbol of its name", [("DEAD}", "dead}"), ("mode := DEAD", "mode := dead")]),
        Mistake("an observer between two wires", [("    a.order :=", "  observer Boolean asked = voter.order;\n    a.order :=")], ("check",),
                "syntax: 71:5", "Such a member ends the section",
                [("    a.order :=", "  observer Boolean asked = voter.order;\n  assertion\n    a.order :=")]),
        Mistake("the end of an inner block is missing", [("calm := false;\n  end\n", "calm := false;\n")], ("check",),
                "syntax: 54:10", "an `end` is missing above"),
        Mistake("a flow is fed by a setting", [("Sensor s1, s2, s3;", "Sensor s1, s2;\n  Sensor s3 (power = true);"), ("    s3.power := true;\n", "")],
                ("check",), "rule: L9 at 57:14", "A setting feeds nothing"),
        Mistake("a flow is only reset", [("Sensor s1, s2, s3;", "Sensor s1, s2;\n  Sensor s3 (power.reset = true);"), ("    s3.power := true;\n", "")],
                TRIP, "fault: {process.demand}: assignment 6 at 69:5 does not hold", "`assertion a.power := true;`"),
        Mistake("one event for two failure modes", [("    die: mode", "    stick_high: mode")], TRIP, "outside: S5 at s1.mode",
                "Two failure modes are two events"),
        Mistake("the range of the votes is too small", [("Votes [0, 3]", "Votes [0, 2]")], TRIP,
                "fault: {process.demand}: flow voter.votes is outside its domain", "bound the value with `min`",
                [("Votes [0, 3]", "Votes [0, 2]"), ("count(s1.vote, s2.vote, s3.vote)", "min(count(s1.vote, s2.vote, s3.vote), 2)")]),
        Mistake("brackets are forgotten", [(SENSOR, "vote := power and mode == STUCK_HIGH or mode == OK and sees;")], TRIP,
                "{process.demand, supply.fail, s1.stick_high, s2.stick_high}", "`and` binds first"),
        Mistake("more than, in a vote", [("votes >= needed", "votes > needed")], TRIP, "{process.demand, supply.fail}", "`>` for `>=` in a vote"),
        Mistake("a symbol of another domain", [("open := mode == FELL_OPEN", "open := mode == STUCK_HIGH")], SPURIOUS,
                "{s1.stick_high, s2.stick_high}", "a symbol that its domain lacks", None,
                "is compared with STUCK_HIGH, which its domain does not have"),
        Mistake("a failure that asks for the demand", [("jam: mode == OK ->", "jam: mode == OK and order ->")], TRIP, "outside: S3 at a.mode",
                "A failure that shows only on demand is a failure like any other"),
        Mistake("two targets of one assignment", [("    a.order := voter.order;\n    b.order", "    a.order, b.order")], ("check",),
                "syntax: 70:12", "`assertion flow, power := true;`"),
        Mistake("two out of three as engineers write it", [("voter.votes := count(", "tripped := 2oo3(")], ("check",), "syntax: 69:17",
                "`assertion flow := 2oo3("),
        Mistake("a count with semicolons", [("(s1.vote, s2.vote, s3.vote)", "(s1.vote; s2.vote; s3.vote)")], ("check",), "syntax: 69:33",
                "`assertion flow := count(power; mode == OK) >= 2;`"),
    ],
    "ring": [
        Mistake("a failed bar is made dead", [(FIRST_TIE, "    if not b1.ok then b1.live := false;\n" + FIRST_TIE), *(
                (tie, f"if {tie[3:6]}.ok then {tie[-7:]}") for tie in TIES)], LOAD, "fault: {b1.fail}: flow b1.live has two values",
                "a bar that can fail goes into the condition"),
        Mistake("the bars are missing in the ties", [(tie, f"if {tie[3:6]}.ok then {tie[-7:]}") for tie in TIES], BOTH,
                "{g1.fail, g2.fail}", "the bar is missing in the condition of a tie", None, "event b4.fail is in no minimal cut set"),
        Mistake("a tie in one way", [(OF_TIE, OF_TIE.replace("b4.live :=: b1.live", "b1.live := b4.live"))], LOAD,
                "fault: {g2.fail, b2.fail}: assignment 9 at 25:40 does not hold", "A tie is written in one way"),
        Mistake("an alarm behind the ring", [(LOST, ALARM), (FIRST_TIE, "    alarm := not b2.live;\n" + FIRST_TIE)], LOAD,
                "fault: {g1.fail, g2.fail}: assignment 3 at 23:5 does not hold", "A flow that no other flow reads may have the other reset",
                [(LOST, ALARM.replace("reset = false", "reset = true")), (FIRST_TIE, "    alarm := not b2.live;\n" + FIRST_TIE)]),
        Mistake("embeds for a second tie", [("Component t12, t23, t34, t41;", "Component t12, t34, t41;\n  embeds t12 as t23;")], LOAD,
                "{g1.fail, g2.fail}", "`embeds` in place of a second part", None, "event t34.fail is in no minimal cut set of load1_lost"),
        Mistake("a tie is written twice", [(OF_TIE, TIES[2].replace("if", "    if", 1) + " :=: b4.live;")], LOAD, "{g1.fail, g2.fail}",
                "in `flat` the line of each flow", None, "twice under the same conditions"),
        Mistake("the wrong breaker in a condition", [("if t41.ok and", "if t34.ok and")], LOAD, "{g1.fail, g2.fail}",
                "a state that no assertion and no observer reads", None, "state t41.ok is read by its own transitions alone"),
        Mistake("not of both", [("not b2.live and not b4.live", "not (b2.live and b4.live)")], BOTH, "{g1.fail, g2.fail}",
                "`not (a and b)` for `not a and not b`"),
        Mistake("a common cause as an action", [(LOST, "  event fire;\n  transition fire: t12.ok and t41.ok -> { t12.ok := false; t41.ok := false; }\n" + LOST)],
                LOAD, "outside: S2 at main", "it is a common cause"),
        Mistake("the loop begins live", [("live (reset = false)", "live (reset = true)")], LOAD, "count 0", "the loop has the wrong `reset`",
                None, "event g1.fail is in no minimal cut set of load1_lost"),
    ],
    "trains": [
        Mistake("a class names a bus of the plant", [("suction and power and", "suction and owner.bus_a.state == OK and")], DRY, "{tank.fail}",
                "one bus for all its parts", None, "event bus_b.fail is in no minimal cut set of no_flow"),
        Mistake("both trains are wired to one bus", [("b.power := bus_b", "b.power := bus_a")], DRY, "{tank.fail}",
                "both trains are wired to one bus", None, "state bus_b.state is read by its own transitions alone"),
        Mistake("a class names a bus without owner", [("suction and power and", "suction and bus_a.state == OK and")], ("check",),
                "rule: L10 at 13:25", "`owner.bus_a` is one bus for all its"),
        Mistake("a semicolon is forgotten", [("valve, pump, check;\n", "valve, pump, check\n")], ("check",),
                "syntax: 11:3", "A semicolon is missing."),
        Mistake("a part is called switch", [("tank, bus_a,", "tank, switch,")], ("check",), "syntax: 16:19", "`switch`"),
        Mistake("a part's transition is written in the unit above",
                [("  observer", "  transition\n    tank.fail: true -> tank.state := FAILED;\n  observer")], ("check",),
                "syntax: 19:9", "not `pump.fail: ..` in the unit above"),
        Mistake("a name has a hyphen", [("bus_a, bus_b;", "bus-a, bus_b;")], ("check",), "syntax: 16:22",
                "`bus_a` and not `bus-a`"),
        Mistake("a class is misspelt", [("  Train a, b;", "  Trian a, b;")], ("check",), "rule: L2 at 17:3",
                "The type is misspelt"),
        Mistake("a flow has no reset", [("flow (reset = false);", "flow;")], ("check",), "rule: L8 at 11:11",
                "A flow has `(reset = VALUE)`"),
        Mistake("a part of the unit above is named without owner", [("flow := suction", "flow := tank.state == OK")],
                ("check",), "rule: L10 at 13:13", "write `owner.` for the unit above"),
        Mistake("False is written for false", [("(reset = false);", "(reset = False);")], ("check",), "rule: L10 at 11:41",
                "`FALSE` are names like any other"),
        Mistake("a common cause is a synchronisation",
                [("  Train a, b;\n", "  Train a, b;\n  event fire;\n  transition fire: ?a.pump.fail & ?b.pump.fail;\n")], DRY,
                "outside: S1 at fire", "Write the common cause as a unit of its own"),
        Mistake("the failure of a spare reads the other train",
                [("  Component valve, pump, check;\n", PUMP), ("    a.suction :=", DEMAND)], DRY,
                "outside: S3 at a.pump.state", "compute in flows what follows from it"),
        Mistake("the guard of a pump reads a flow of its own",
                [("  Component valve, pump, check;\n", PUMP.replace("demand", "on")), ("    a.power :=", "    a.pump.on := true;\n    b.pump.on := true;\n    a.power :=")],
                DRY, "outside: S3 at a.pump.state", "leave the flow out of the guard"),
        Mistake("= is written for ==", [("fail: state == OK", "fail: state = OK")], ("check",), "syntax: 7:17",
                "`transition fail: mode = OK -> mode := FAILED;`"),
        Mistake("the word transition is forgotten", [("  transition\n", "")], ("check",), "syntax: 6:9",
                "`fail: mode == OK -> mode := FAILED;`"),
        Mistake("a flow is asked for", [], ("cuts", "--observer", "a.flow"), "script: no observer", "a flow is none"),
        Mistake("an input is left open", [("    b.power := bus_b.state == OK;\n", "")], DRY, "{tank.fail}",
                "an input is open"),
    ],
    "voter": [
        Mistake("truth values are added", [(ASKING, SUM)], ("check",), "rule: L11 at 25:15", "`count(a, b, c)`"),
        Mistake("# is written for count", [("asking := count(", "asking := #(")], ("check",), "syntax: 25:15",
                "`count(a, b, c)` for `#(a, b, c)`"),
        Mistake("a variable is Integer", [("  Votes asking", "  Integer asking")], ("check",), "syntax: 19:3",
                "never `Integer`"),
        Mistake("two comparisons are chained", [("asking >= 2", "2 <= asking <= 3")], ("check",), "syntax: 27:39",
                "A comparison has two sides"),
        Mistake("a range has dots", [("[0, 3]", "[0..3]")], ("check",), "syntax: 3:16", "not `[0..3]`"),
        Mistake("two assignments have no braces", [("ok := false;", "ok := false; ok := false;")], ("check",),
                "syntax: 14:42", "Two assignments of one transition are in braces"),
        Mistake("a symbol is misspelt", [("mode := HIGH", "mode := HIHG")], ("check",), "rule: L10 at 9:38",
                "A misspelt symbol is L10 too"),
        Mistake("a symbol is of another domain", [("domain Votes", "domain Pump {ON, OFF}\ndomain Votes"), ("= OK)", "= ON)")],
                ("check",), "rule: L12 at 6:21", "A symbol of another domain is L12"),
        Mistake("a repair leads back from several modes",
                [("fail_high;\n", "fail_high, repair;\n"), ("    fail_high:", "    repair: mode != OK -> mode := OK;\n    fail_high:")],
                NO_TRIP, "outside: S5 at s1.mode", "A repair from several modes"),
        Mistake("an assignment before else has no ;",
                [("trips := voter.ok and asking >= 2;", "if voter.ok then trips := asking >= 2 else trips := false;")],
                ("check",), "syntax: 27:43", "`assertion if mode == OK then flow := power; else flow := false;`"),
        Mistake("two failures lead to one mode", [("mode := HIGH", "mode := LOW")], NO_TRIP, "outside: S6 at s1.mode",
                "Give each event a mode of its own"),
        Mistake("votes are counted up", [(ASKING, "    asking := 0;\n" + COUNTED.rstrip("\n"))], NO_TRIP,
                "fault: {}: flow asking has two values", "Assertions are no program"),
        Mistake("the domain is too small", [("[0, 3]", "[0, 2]")], NO_TRIP, "fault: {}: flow asking is outside its domain",
                "Make the domain larger"),
        Mistake("a number is asked for without a value", [], ("cuts", "--observer", "left"), "script: no value",
                "is missing where the observer is not Boolean"),
    ],
    "loop": [
        Mistake("a bus feeds itself", [("b2.from_left := tie_12.ok and b1.live", "b2.from_left := tie_12.ok and b2.live")], DARK, "{grid.fail, diesel.fail}",
                "a flow feeds itself", None, "flow b2.from_left is set at 25:5 from b2.live of its own unit"),
        Mistake("two resets in one loop", [("from_left, from_right, live (reset = false);", "from_left, from_right (reset = false);\n  Boolean live (reset = true);")],
                DARK, "fault: {grid.fail, diesel.fail}: assignment 4 at 24:5 does not hold", "have different resets"),
        Mistake("an if reads a flow of the loop", [("(fed or from_left or", "(if from_left then true else fed or")], DARK,
                "fault: {}: assignment 10 at 13:5 does not hold", "HOWTO_LOOPS"),
        Mistake("nothing starts the loop", [("b1.fed := grid.ok", "b1.fed := false"), ("b3.fed := diesel.ok", "b3.fed := false")],
                DARK, "{}", "nothing feeds the loop"),
        Mistake("an input is set under a condition alone",
                [("    b2.fed := false;", "    if not grid.ok then b2.fed := false;"), ("fed or from", "not fed or from")], DARK,
                "fault: {}: assignment 11 at 13:5 does not hold", "as where an `if` has no `else`"),
        Mistake("repairs are not dropped", [], ("cuts", "--observer", "dark"), "outside: S6 at grid.ok",
                "Leave the repairs out"),
        Mistake("a space is behind the comma of --drop", [], (*DARK[:-1], "grid.mend,", "diesel.mend"),
                "usage: altarica COMMAND FILES [--main B] [--observer O] [--value V] [--nodes N] [--drop EVENTS]",
                "A space behind a comma of `--drop`"),
        Mistake("an inherited variable is declared again",
                [("  extends Component;\n", "  extends Component;\n  Boolean ok (init = true);\n")], ("check",),
                "rule: L4 at 11:11", "Inherited members count"),
        Mistake("a bus has its neighbour as a part", [("  Boolean fed", "  Bus next;\n  Boolean fed")], ("check",),
                "rule: L3 at 11:3", "a part of the unit above"),
        Mistake("a setting lacks init", [("  Bus b1, b2, b3;", "  Bus b1, b2;\n  Bus b3 (ok = false);")], ("check",),
                "rule: L9 at 18:11", "the `init` of a state"),
        Mistake("an assertion assigns a state", [("    b2.fed := false;", "    b2.fed := false;\n    b2.ok := true;")],
                ("check",), "rule: L13 at 22:5", "An assertion assigns flows"),
        Mistake("boolean is written for Boolean", [("  Boolean ok (", "  boolean ok (")], ("check",), "rule: L2 at 3:3",
                "`Boolean`, not `boolean`"),
        Mistake("another block is behind the plant", [(LAST, LAST + "block Test\nend\n")], ("cuts", "--observer", "dark"),
                "script: no observer", "the main block is the last one of the text"),
        Mistake("a part is fired", "fire grid\n", ("replay",), "script: line 1 names no event", "take the labels that"),
        Mistake("a remark is behind a command", "fire grid.fail // lost\n", ("replay",), "script: line 1 is no command",
                "put a remark on a line of its own"),
        Mistake("a failure is fired twice", "fire grid.fail\nfire grid.fail\n", ("replay",), "fault: grid.fail: not enabled",
                "The guard of the event is false"),
    ],
}


SPARED = "outflow := mode == READY and spared and inflow and power;"
SHOCK = "  Component tank, grid, bus, shock;\n"
STRIKE = """  Component tank, grid, bus;
  block shock
    Boolean absent (init = true);
    event strike;
    transition strike: absent -> %s
  end
"""
WIRES = "    a.pump.spared := shock.ok;\n    b.pump.spared := shock.ok;\n"
DIESEL = "  Boolean demand, runs (reset = false);"
ALL_TRUE = [(DIESEL, "  Boolean demand, runs, cooled (reset = true);"), ("runs := demand and mode == READY;", "runs := demand and mode == READY and cooled;"),
            ("    diesel.demand := not grid.ok;\n", "    diesel.demand := not grid.ok;\n    diesel.cooled := live;\n")]
RESETS = ("returns, supply", "from_a, from_b, to_a, to_b, tight", "from_left, from_right, fed, water", "supply, cooled")
RETURNS = "    a.returns := return_main.ok;\n    b.returns := return_main.ok;\n"
FED_BACK = RETURNS.replace("ok;", "ok and (c1.cooled or c2.cooled or c3.cooled);")
RIGHT = "n2.left_tight := s12.tight;  n2.right_tight := s23.tight;"
VOTE = "count(in1, in2, in3) >= 2"


def with_true(*names):
    return [(f"{name} (reset = false)", f"{name} (reset = true)") for name in names]


MISTAKES |= {
    "injection": [
        Mistake("a semicolon before Boolean is missing", [("  Train a, b;", "  Train a, b")], ("check",), "syntax: 51:3",
                "`Base left Boolean ok (init = true);`", why="a `;` is missing after `b` on line 50"),
        Mistake("an end is missing", [("disc := STUCK;\n  end\n", "disc := STUCK;\n")], ("check",), "syntax: 31:1",
                "`end` in the column of an outer body", why="`block check`, which begins on line 22, has no `end`"),
        Mistake("an end is too far down", [("disc := STUCK;\n  end\n", "disc := STUCK;\n"), ("check.disc == FREE;\nend\n", "check.disc == FREE;\nend\nend\n")],
                ("check",), "rule: L10 at 28:5", "Where a block lacks its `end`", why="the `end` of the block `check` is missing"),
        Mistake("a shock breaks both pumps by its action",
                [(SHOCK, STRIKE % "{ absent := false; owner.a.pump.mode := FAILED_RUN; owner.b.pump.mode := FAILED_RUN; }"), (WIRES, ""),
                 (SPARED, SPARED.replace("spared and ", ""))], NO_FLOW, "outside: S4 at shock.absent",
                "`strike: absent -> absent := false;`", why="`a.pump.spared := shock.absent;`"),
        Mistake("a spare is asked for by the loss of what it restores", [("diesel.demand := not grid.ok", "diesel.demand := not live")],
                NO_FLOW, "fault: {grid.fail}: assignment 1 at 56:5 does not hold", "`demand := not grid.ok;`",
                [("    diesel.demand := not grid.ok;\n", ""), ("runs := demand and", "runs :=")], why="`demand := not grid.ok;`"),
        Mistake("what reads a loop that keeps itself running has another reset",
                [*ALL_TRUE, ("  Boolean live, vessel (reset = false);", "  Boolean live (reset = true);\n  Boolean vessel (reset = false);")],
                NO_FLOW, "fault: {grid.fail}: assignment 6 at 62:5 does not hold", "on to the last flow",
                [*ALL_TRUE, *with_true("power, spared, outflow", "suction, flow", "live, vessel")], why="give both one reset"),
        Mistake("a wire the wrong way round", [("a.pump.power := live", "live := a.pump.power")], NO_FLOW,
                "fault: {}: assignment 5 at 60:5 does not hold", "`a.pump.power := live;`", why="`a.pump.power := live;`"),
        Mistake("a repair from two modes", [("fail_to_run (delay = exponential(1.0e-5));\n", "fail_to_run, repair;\n"), (
            "  assertion\n    outflow", "    repair: mode != READY -> mode := READY;\n  assertion\n    outflow")], NO_FLOW,
                "outside: S5 at a.pump.mode", "leave it out by `--drop`", why="--drop a.pump.repair,b.pump.repair"),
        Mistake("a spare begins on standby", [
            ("domain ValveState", "domain DieselState {STANDBY, RUNNING, FAILED_START, FAILED_RUN}\ndomain ValveState"),
            ("  PumpState mode (init = READY);\n" + DIESEL, "  DieselState mode (init = STANDBY);\n" + DIESEL),
            ("  event fail_to_start, fail_to_run;\n  transition\n    fail_to_start: mode == READY -> mode := FAILED_START;\n"
             "    fail_to_run: mode == READY", "  event start, fail_to_start, fail_to_run;\n  transition\n    start: mode == STANDBY -> mode := RUNNING;\n"
             "    fail_to_start: mode == STANDBY -> mode := FAILED_START;\n    fail_to_run: mode == RUNNING"),
            ("demand and mode == READY", "demand and mode == RUNNING")], NO_FLOW, "{tank.fail}", "the spare begins in STANDBY", None,
                "event diesel.start is in no minimal cut set of no_flow"),
        Mistake("the common cause reaches one train alone", [("b.pump.spared := shock.ok", "b.pump.spared := bus.ok")], NO_FLOW, "{tank.fail}",
                "a common part reaches one train alone"),
        Mistake("each train has a common cause of its own", [(SHOCK, SHOCK.replace(", shock", "")), ("  Pump pump;\n", "  Pump pump;\n  Component shock;\n"), (
            WIRES, WIRES.replace(":= shock", ":= X.shock").replace("X", "a", 1).replace("X", "b", 1))], NO_FLOW, "{tank.fail}",
                "is declared in the class of the trains"),
        Mistake("a spare feeds through the failed bus", [("bus.ok and (grid.ok or diesel.runs)", "bus.ok and grid.ok or diesel.runs")], NO_FLOW,
                "{tank.fail}", "a further failure brings the function back", None, "after {bus.fail}, and no longer after a further event, grid.fail"),
        Mistake("a flow is only given its reset", [("vessel := a.flow or b.flow;", "if not a.flow and not b.flow then vessel := false;")], NO_FLOW,
                "{}", "a flow is only ever given its reset", None, "flow vessel is only ever given its reset value, false"),
        Mistake("not binds the first alone", [("no_flow = not vessel", "no_flow = not a.flow and b.flow")], NO_FLOW, "{a.isolation.close}",
                "`(not a) and b`"),
        Mistake("fire is missing", "a.check.stick\n", ("replay",), "script: line 1 is no command", "no `fire`", why="write `fire a.check.stick`"),
        Mistake("a cut is a line of a script", "{a.check.stick}\n", ("replay",), "script: line 1 is no command", "a cut in braces",
                why="tools/line_as_script"),
        Mistake("an event is one of two", "fire a.pump.fail\n", ("replay",), "script: line 1 names no event", "the path is misspelt",
                why="the nearest are `a.pump.fail_to_run` and `a.pump.fail_to_start`"),
    ],
    "cooling": [
        Mistake("a closed circuit is fed back", [(RETURNS, FED_BACK)], C2_DRY, "{}", "do not feed the return back", None,
                "is in a loop that nothing starts"),
        Mistake("a closed circuit keeps itself running", [(RETURNS, FED_BACK), *with_true(*RESETS)], C2_DRY, "{s12.leak, s34.stick}",
                "`reset = true` in a ring or a circuit", None, "which nothing feeds at the start: it is true by its reset alone"),
        Mistake("a ring has another reset than what reads it", with_true(*RESETS[1:3]), C2_DRY,
                "fault: {return_main.fail}: assignment 31 at 72:5 does not hold", "`true` the list loses the sources", why="`false` for what is supplied"),
        Mistake("a ring and what reads it have the reset true", with_true(*RESETS[1:]), C2_DRY, "{s12.leak, s34.stick}",
                "which then needs no source", None, "which nothing feeds after {return_main.fail}"),
        Mistake("two inputs have one source", [(RIGHT, RIGHT.replace("s23", "s12"))], C2_DRY, "{return_main.fail}",
                "two inputs of a part have one source", None, "flow n2.right_tight is set from s12.tight, as n2.left_tight of the same part is"),
        Mistake("a target is misspelt", [("n2.from_right := s23.to_a", "n2.from_left := s23.to_a")], C2_DRY,
                "fault: {s12.stick}: flow n2.from_left has two values", "`n2.from_right := s23.to_a;`", why="No assertion sets `n2.from_right`"),
        Mistake("a wire the wrong way round", [("n3.from_left := s23.to_b", "s23.to_b := n3.from_left")], C2_DRY,
                "fault: {}: assignment 19 at 66:5 does not hold", "a tie `:=:` is not the mend", why="`n3.from_left := s23.to_b;`"),
        Mistake("the greatest of truth values", [("(fed or from_left or from_right)", "max(fed, from_left, from_right)")], ("check",),
                "rule: L11 at 35:45", "`assertion water := a.flow or b.flow;`", why="of truth values the greatest is written with `or`"),
        Mistake("when is written for if", [("to_b := mode == OK and from_a;", "to_b :=: from_a when mode == OK;")], ("check",), "syntax: 28:21",
                "`assertion if mode == OK then power :=: flow;`", [("to_b := mode == OK and from_a;", "if mode == OK then to_b :=: from_a;")]),
        Mistake("a segment passes on in one way", [("    to_a := mode == OK and from_b;\n", "")], C2_DRY, "{return_main.fail}", "an input is open",
                None, "flow s12.to_a is set by no assertion"),
    ],
    "feed": [
        Mistake("an assertion of a class that is extended is written again", [(
            "  StandbyPump booster, feed;\n", "  StandbyPump booster, feed;\n  assertion delivers := feed.outflow and valve.mode == OPENS and supply.mode != STUCK;\n")],
                LOSS, "fault: {bus_1.lose, a.supply.stick, b.supply.stick}: flow b.delivers has two values", "writes its assertion again",
                why="`StandbyTrain` extends `Train` and has its assertions too"),
        Mistake("a switch that sticks is treated as dead", [(POWER, "power := mode == MOVES and (normal or other);")], LOSS,
                "{bus_1.lose, bus_2.lose}", "`mode == OK and (normal or other)`",
                [(POWER, "power := (mode == MOVES and (normal or other)) or (mode == STUCK and normal);")]),
        Mistake("a demand reads a flow before the last part", [("b.demand := not a.delivers", "b.demand := not a.feed.outflow")], LOSS,
                "{bus_1.lose, bus_2.lose}", "ask what the train delivers", None, "and no longer after a further event, a.booster.fail_to_run"),
        Mistake("a spare is a clone of the train that runs", [("  StandbyTrain b;\n", "  clones a as b;\n")], LOSS, "{bus_1.lose, bus_2.lose}",
                "the failures to start are missing", None, "b.feed.mode never has the value FAILED_START"),
        Mistake("both buses of a train are one", [("b.supply.other := bus_1.live", "b.supply.other := bus_2.live")], LOSS,
                "{bus_1.lose, bus_2.lose}", "two trains with the same second bus"),
        Mistake("a demand behind a tie", TIED, LOSS, "fault: {bus_1.lose, bus_2.lose}: assignment 6 at 87:5 does not hold",
                "`spare.demand := true;`", why="the spare needs none: `b.demand := true;`"),
    ],
    "monitor": [
        Mistake("a shock leaves the good value", [(" and not upset;", ";")], LOSS, "{supply.fail}", "lacks `and not upset`", None,
                "event software.fail is in no minimal cut set of loss"),
        Mistake("a monitor takes the power of what it watches", [("wrong := power and", "wrong := power and not (wrong and watched) and")],
                ERRONEOUS, "fault: {software.fail}: assignment 11 at 12:5 does not hold", "let it act on a flow behind"),
        Mistake("a condition is turned round", [("not watched", "watched")], ERRONEOUS, "{software.fail}", "a `not` too many or missing", None,
                "event monitor.fail is in no minimal cut set of erroneous"),
    ],
    "spread": [
        Mistake("a spread ends after one step", [("l3 and r3", "l1 and r1")], SHORTS, "{source.fail}", "a spread ends after one step"),
        Mistake("a spread is a loop with another reset", [("sound and l3 and r3",
            "sound and (q_left.mode != STUCK or left.clear) and (q_right.mode != STUCK or right.clear)"),
            ("live, clear, l1", "live, l1"), ("  event short;\n", "  Boolean clear (reset = true);\n  event short;\n")], SHORTS,
                "fault: {q12.stick}: assignment 12 at 24:5 does not hold", "a failure that spreads"),
        Mistake("a neighbour is named without owner", [("embeds owner.b3 as left", "embeds b3 as left")], ("check",), "rule: L6 at 35:32",
                "`owner.left` for a neighbour", why="write `owner.b3`"),
    ],
    "channel": [
        Mistake("a comma is between two transitions", [("mode := SILENT;", "mode := SILENT,")], ("check",), "syntax: 12:46",
                "`transition fail: mode == OK -> mode := FAILED, repair: mode == FAILED -> mode := OK;`", why="write `;` for this `,`"),
        Mistake("the bracket of a vote ends too late", [(VOTE, "count(in1, in2, in3 >= 2)")], ("check",), "rule: L11 at 26:55",
                "`assertion water := count(a.flow, b.flow) >= 2;`", why="with the bracket before the comparison"),
        Mistake("the bracket of a vote ends too late, and it is compared twice", [(VOTE, "count(in1, in2, in3 >= 2) >= 2")], ("check",),
                "rule: L11 at 26:71", "`assertion water := count(a.flow, b.flow) >= 2;`", why="does the bracket of `count` end too late?"),
        Mistake("a vote has == for >=", [(VOTE, "count(in1, in2, in3) == 2")], DEMANDED, "{}", "`votes == 2` is false at three votes"),
        Mistake("one of three for two of three", [(VOTE, "count(in1, in2, in3) >= 1")], DEMANDED, "{s1.go_silent, s2.go_silent, s3.go_silent}",
                "a wrong number in a vote"),
        Mistake("a demand ends with the trip", [("  assertion demand := true;", "  Boolean hazard (init = true);\n  assertion demand := hazard and not trip;")],
                DEMANDED, "fault: {}: assignment 12 at 73:13 does not hold", "`demand := hazard;`",
                [("  assertion demand := true;", "  Boolean hazard (init = true);\n  assertion demand := hazard;")], why="and not what it brings about"),
        Mistake("a demand ends with the trip, by if",
                [("  assertion demand := true;", "  Boolean hazard (init = true);\n  assertion if hazard and not trip then demand := true;")],
                DEMANDED, "fault: {}: assignment 12 at 73:41 does not hold", "`demand := hazard;`", why="with conditions on states"),
        Mistake("a common cause fires one failure of each", [
            ("  Boolean demand, trip (reset = false);\n", "  event high;\n  transition high: !s1.go_high & !s2.go_high;\n  Boolean demand, trip (reset = false);\n")],
                DEMANDED, "outside: S1 at high", "goes in by `or`"),
        Mistake("a failure that acts by itself has a condition", [("mode == HIGH or (mode == GOOD and demand)", "(mode == HIGH or mode == GOOD) and demand")],
                CALM, "{voter.fire_itself}", "it acts by itself and has a condition all the same", None, "event s1.go_high is in no minimal cut set"),
        Mistake("a flow tests the wrong mode", [("(mode == GOOD and demand)", "(mode == SILENT and demand)")], DEMANDED, "{}",
                "a flow tests the wrong mode"),
        Mistake("two inputs of a voter have one source", [("voter.in3 := s3.alarm", "voter.in3 := s2.alarm")], DEMANDED, "{s2.go_silent}",
                "two inputs of a part have one source", None, "flow voter.in3 is set from s2.alarm, as voter.in2 of the same part is"),
        Mistake("an open demand before a vote", [("  assertion demand := true;\n", "")], DEMANDED,
                "fault: {s1.go_high, s2.go_high}: assignment 15 at 26:5 does not hold", "`count` waits for all its operands", why="which no assertion sets"),
        Mistake("a wire the wrong way round", [("voter.in1 := s1.alarm", "s1.alarm := voter.in1")], DEMANDED,
                "fault: {}: assignment 4 at 53:5 does not hold", "`voter.in1 := s1.alarm;`", why="`voter.in1 := s1.alarm;`"),
        Mistake("a slip is in the other main block", [("spurious_trip = trip", "spurious_trip = tripp")], ("check", "--main", "Calm"),
                "rule: L10 at 65:36", "The path is misspelt", why="the nearest is `trip`"),
    ],
}


def point(what, why):
    print(f"failed: {what} ({why})" if why else f"passed: {what}")


def lines_of(words):
    done = subprocess.run(words, stdin=subprocess.DEVNULL, stdout=subprocess.PIPE, stderr=subprocess.STDOUT, timeout=60)
    return done.stdout.decode("utf-8", "replace").splitlines()


def file_of(name):
    """The model of a name, which may have words on what is asked for behind it."""
    return pathlib.Path(FILES.get(name.split()[0], f"{TRIAL}/{name.split()[0]}.alt"))


def cuts(name, file):
    """Says why the cuts of a model are not those that were found by hand."""
    words, wanted = CUTS[name]
    *sets, count = lines_of([PROGRAM, words[0], file, *words[1:]]) or ["nothing"]
    got = {frozenset(it.strip("{}").split(", ")) for it in sets}
    by_hand = {frozenset(it.split(", ")) for it in wanted}
    return "" if got == by_hand and count == f"count {len(wanted)}" else f"{count}, and by hand {len(wanted)}"


def changed(text, changes, what):
    for before, after in changes:
        assert text.count(before) == 1, (what, before)
        text = text.replace(before, after)
    return text


def answer(mistake, name, folder):
    """The line that the program writes on a model with the mistake."""
    text, files = file_of(name).read_text(), [f"{folder}/model"]
    if isinstance(mistake.changes, str):
        files.append(f"{folder}/script")
        pathlib.Path(files[1]).write_text(mistake.changes)
    else:
        text = changed(text, mistake.changes, mistake.what)
    pathlib.Path(files[0]).write_text(text)
    lines = lines_of([PROGRAM, mistake.words[0], *files, *mistake.words[1:]]) or ["nothing"]
    return lines[-1 if len(files) > 1 else 0]


def section_of(line):
    return "\n".join(lines_of(["./altarica", "--explain", line]))


def mended(mistake, name, folder):
    """Says why the cuts of the mended model are not those that were found by hand."""
    pathlib.Path(f"{folder}/model").write_text(changed(file_of(name).read_text(), mistake.mended, mistake.what))
    return "; ".join(filter(None, (cuts(it, f"{folder}/model") for it in CUTS if it.split()[0] == name)))


def explained(mistake, folder):
    """Says that `why` lacks the words on the model with the mistake, which is the last that was written."""
    files = [f"{folder}/model"] + [f"{folder}/script"] * isinstance(mistake.changes, str)
    said = "\n".join(lines_of(["tools/why", mistake.words[0], *files, *mistake.words[1:]]))
    return "" if mistake.why in said else f"it lacks `{mistake.why}`"


def linted(mistake, folder):
    """Says that lint lacks the words on the model with the mistake, which is the last that was written."""
    said = "\n".join(lines_of(["tools/lint", f"{folder}/model", *mistake.words[1:]]))
    return "" if mistake.lint in said else f"it lacks `{mistake.lint}`"


with tempfile.TemporaryDirectory() as made:
    for model in CUTS:
        point(f"{model}: the cuts that were found by hand", cuts(model, file_of(model)))
    for model, mistakes in MISTAKES.items():
        for it in mistakes:
            got = answer(it, model, made)
            point(f"{model}, {it.what}: {it.line}", "" if got == it.line else f"got {got}")
            point(f"{model}, {it.what}: the section mends it", "" if it.mend in section_of(it.line) else f"it lacks `{it.mend}`")
            if it.why:
                point(f"{model}, {it.what}: why says it", explained(it, made))
            if it.lint:
                point(f"{model}, {it.what}: lint says it", linted(it, made))
            if it.mended:
                point(f"{model}, {it.what}: the mended model has the cuts by hand", mended(it, model, made))
