#!/usr/bin/env bash
# `order`, `line_as_script` and `compare` on the listings of the example plants.
. "$(dirname "$0")/points.bash"
for tool in order line_as_script compare; do usage $tool; done

for plant in brake bus hydraulic pumps ring; do
  read -ra words <<<"$(words_of $plant)"
  drop=()
  [ "${words[2]-}" = --drop ] && drop=(--drop "${words[3]}")
  awk -F'[{}]' '/^\{/ { n = split($2, l, ", "); s = ""; for (i = n; i > 0; i--) s = s (s == "" ? "" : ", ") l[i]; print "{" s "}" }' "examples/$plant.cuts" >"$work/turned"
  tools/order "examples/$plant.alt" "$work/turned" "${drop[@]}" >"$work/ordered"
  equal "checkcuts takes the list of $plant with its labels turned round, once it is in order" yes \
    "$("$ALTARICA" checkcuts "examples/$plant.alt" "$work/ordered" "${words[@]}" | tail -n 1)"
  equal "the list of $plant turned round is the same set" 0 "$(tools/compare "$work/turned" "examples/$plant.cuts" >/dev/null; echo $?)"
done

# Trees of two edges: labels in the wrong order cannot be fired.
printf '// from elsewhere\n{a.die, b.wear, b.die, a.wear}\n{v.jam_open}\n' >"$work/foreign"
wear() { "$ALTARICA" checkcuts tests/beside/wear.alt "$1" --observer lost | tr '\n' ' '; }
equal "a cut with its labels in any order fails as it is written" 'line 2 fails line 3 fails no ' "$(wear "$work/foreign")"
tools/order tests/beside/wear.alt "$work/foreign" >"$work/ordered"
equal "and is good once it is in order, with the lines where they were" 'line 2 good line 3 fails no ' "$(wear "$work/ordered")"
printf '{can.fail, none.such}\n' >"$work/alias"
equal "an alias keeps its name and has its place, and what is no event comes last" '{can.fail, none.such}' \
  "$(printf '{none.such, can.fail}\n' | tools/order examples/brake.alt -)"

tools/line_as_script examples/bus.cuts 3 >"$work/script"
equal "line 3 of a list as a script" '// line 3 of examples/bus.cuts fire right_trip fire left_feeder.open ' "$(tr '\n' ' ' <"$work/script")"
equal "and its replay brings the condition about" '  observer dark = true' "$("$ALTARICA" replay examples/bus.alt "$work/script" | grep observer | tail -n 1)"
tools/line_as_script examples/conflict.cuts 1 >"$work/script"
equal "the line of a fault as a script leads to the fault" 'fault: upper.lose_sensor: flow setpoint has two values' \
  "$("$ALTARICA" replay examples/conflict.alt "$work/script" | tail -n 1)"
equal "a line without a cut is no script" 4 "$(tools/line_as_script examples/bus.cuts 5 >/dev/null 2>&1; echo $?)"

sed '2d' examples/bus.cuts | sed 's/count 4/count 3/' >"$work/less"
equal "compare shows what one list alone has" '- {left_trip, right_feeder.open} both 3, first alone 1, second alone 0  status 1' \
  "$(tools/compare examples/bus.cuts "$work/less" | tr '\n' ' ') status $(tools/compare examples/bus.cuts "$work/less" >/dev/null; echo $?)"
sed '2d' examples/bus.cuts >"$work/cut_short"
equal "compare refuses a list that is not whole" 4 "$(tools/compare examples/bus.cuts "$work/cut_short" >/dev/null 2>&1; echo $?)"
equal "compare refuses a refusal" 4 "$(tools/compare examples/bus.cuts examples/supply.cuts >/dev/null 2>&1; echo $?)"
equal "compare says which list cannot be read" 'compare: none: No such file or directory' "$(tools/compare examples/bus.cuts none 2>&1)"
equal "a list is compared by the events of its lines: twice the same label, and the number of the one way of an event" 'both 2, first alone 0, second alone 0 ' \
  "$(printf '{a, a, b}\n{c#1}\n{c}\n' | tools/compare - <(printf '{b, a}\n{c}\n') | tr '\n' ' ')"
equal "labels with numbers of two ways keep them" '- {e#1} + {e#2} both 0, first alone 1, second alone 1 ' \
  "$(printf '{e#1}\n' | tools/compare - <(printf '{e#2}\n') | tr '\n' ' ')"
equal "a byte order mark hides no cut" 'both 1, first alone 0, second alone 0' "$(printf '\357\273\277{a}\r\ncount 1\r\n' | tools/compare - <(printf '{a}\n'))"
printf '{a}\n' >"$work/x=1"
equal "a name with = is a file" 'both 1, first alone 0, second alone 0' "$(cd "$work" && "$top/tools/compare" x=1 x=1)"
printf 'hello\n' >"$work/no_list"
: >"$work/empty"
for list in no_list empty; do
  equal "what is no list is not the same as itself: $list" 4 "$(tools/compare "$work/$list" "$work/$list" >/dev/null 2>&1; echo $?)"
done
equal "a program that writes nothing is no list" 4 "$(tools/compare <(true) <(true) >/dev/null 2>&1; echo $?)"
equal "two lists without cuts are the same" 'both 0, first alone 0, second alone 0' "$(printf 'count 0\n' | tools/compare - <(printf 'count 0\n'))"
equal "a file name adds no line to a script" '// line 1 of WORK/x\x0afire evil fire a ' \
  "$(cp "$work/x=1" "$work/x"$'\n'"fire evil"; tools/line_as_script "$work/x"$'\n'"fire evil" 1 | sed "s|$work|WORK|" | tr '\n' ' ')"
equal "order says that events can be left out" 'order: --drop leaves events out, as for cuts' "$(tools/order examples/bus.alt examples/bus.cuts 2>&1 | tail -n 1)"
printf 'outside: S1 at lose_grid\n' >"$work/refused"
equal "in CI the cut sets are not as before where the list of before is not there, or is none" '2 2 0' \
  "$(for list in "$work/nowhere" "$work/refused" "$work/none_at_all"; do
    echo 'count 0' >"$work/none_at_all"
    tests/ci/same_cuts "$list" tests/beside/wear.alt odd >"$work/out" 2>&1; echo $?; done | xargs)"
