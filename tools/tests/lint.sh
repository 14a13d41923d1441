#!/usr/bin/env bash
# `lint` says of the example plants what is true of them and nothing else, each slip of the models of tests/lint, and
# the open inputs of tests/beside/vote.alt. With an observer it lists the failures that are in no minimal cut set.
. "$(dirname "$0")/points.bash"
usage lint

for plant in brake bus conflict pumps repair ring supply; do
  equal "lint has nothing to say of $plant" ' status 0' "$(tools/lint "examples/$plant.alt" 2>/dev/null) status $?"
done
equal "a lint that finds nothing says so on standard error" 'lint: nothing to say of the main block `Supply`' "$(tools/lint examples/supply.alt 2>&1)"
equal "lint says of hydraulic that gear_power is read nowhere" \
  "examples/hydraulic.alt:35:24: lint: flow gear_power is read nowhere: no assertion, transition or observer names it status 1" \
  "$(tools/lint examples/hydraulic.alt 2>&1) status $?"
equal "lint says each slip of slips.alt" "$(cat tests/lint/expected)" "$(tools/lint tests/lint/slips.alt 2>&1)"
equal "lint says which loops of flows nothing starts, and which flows their own assertion reads" "$(cat tests/lint/loops.expected)" "$(tools/lint tests/lint/loops.alt 2>&1)"
equal "lint says which values a domain does not have" "$(cat tests/lint/values.expected)" "$(tools/lint tests/lint/values.alt 2>&1)"
equal "lint says which wires a part closes over itself, which ties are written twice, and what its own transitions alone read" "$(cat tests/lint/wiring.expected)" "$(tools/lint tests/lint/wiring.alt 2>&1)"
equal "lint says which inputs have one source, which flows get their reset alone, and which loops keep themselves true" "$(cat tests/lint/circuit.expected)" "$(tools/lint tests/lint/circuit.alt 2>&1)"
equal "lint with an observer says after which cut set a further event takes the value away" \
  'tests/lint/comes_back.alt:9:20: lint: observer dark is true after {bus.fail}, and no longer after a further event, grid.fail status 1' \
  "$(tools/lint tests/lint/comes_back.alt --observer dark 2>&1) status $?"
equal "lint with an observer: a mode that only a class that extends this one enters is no slip" ' status 0' \
  "$(tools/lint tests/trial/feed.alt --observer loss 2>/dev/null) status $?"
equal "lint of a text with several blocks says which it has not looked at" \
  'lint: nothing to say of the main block `Summer`; not looked at: --main Winter' "$(tools/lint tests/lint/two_blocks.alt 2>&1)"
both="--ask Demanded:no_trip,Calm:spurious_trip"
equal "lint of two main blocks in one call names the events that are in no cut of any" ' status 0' \
  "$(tools/lint tests/trial/channel.alt $both 2>/dev/null) status $?"
equal "and says of which blocks there is nothing to say" 'lint: nothing to say of the main blocks `Demanded` and `Calm`' "$(tools/lint tests/trial/channel.alt $both 2>&1)"
equal "lint --ask takes blocks and observers alone" '2 2 3' \
  "$(for ask in Demanded "Calm:spurious_trip --main Calm" Nosuch:x; do tools/lint tests/trial/channel.alt --ask $ask >/dev/null 2>&1; echo $?; done | paste -sd' ')"
tools/lint tests/lint/slips.alt --json >"$work/json" 2>/dev/null
equal "lint --json has the lines of the text, with file, line, column, rule and cause" "$(cat tests/lint/expected)" \
  "$(python3 -c 'import json, sys; [print("%(file)s:%(line)d:%(column)d: lint: %(cause)s" % it) for it in json.load(open(sys.argv[1]))]' "$work/json")"
equal "lint --json where there is nothing to say is an empty list" '[]' "$(tools/lint examples/supply.alt --json 2>/dev/null)"
rules=$(tools/lint tests/lint/slips.alt --names 2>/dev/null | sed 's/.*\[\(.*\)\]$/\1/' | sort -u)
silenced() { awk -F: 'FNR == NR { name = $0; sub(/.*\[/, "", name); sub(/\]$/, "", name); said[$2] = said[$2] (said[$2] == "" ? "" : ", ") name; next } { print $0 (FNR in said ? " // lint: allow " said[FNR] : "") }' <(tools/lint "$1" --names 2>/dev/null) "$1"; }
silenced tests/lint/slips.alt >"$work/silenced.alt"
equal "remarks \`// lint: allow NAME\` silence each line of slips.alt" ' status 0' "$(tools/lint "$work/silenced.alt" 2>/dev/null) status $?"
equal "each name is one of --help" '' "$(for rule in $rules; do tools/lint --help | grep -qw "$rule" || echo "$rule"; done)"
sed 's|// lint: allow .*|// lint: allow nosuch|' "$work/silenced.alt" >"$work/wrong.alt"
equal "a name that is none is said" "$(grep -c nosuch "$work/wrong.alt")" "$(tools/lint "$work/wrong.alt" 2>/dev/null | grep -c 'is the name of no check')"
equal "a symbol with the name of a variable of the main block is told apart from it" \
  'tests/lint/symbol_of_main.alt:12:5: lint: state d.m never has the value good: no event enters it status 1' "$(tools/lint tests/lint/symbol_of_main.alt 2>/dev/null) status $?"
equal "lint with two observers lists the failures that are in no cut set of either" ' status 0' \
  "$(tools/lint tests/models/howto/protection.alt --observer no_trip,spurious 2>/dev/null) status $?"
equal "lint with an observer: in the right model each failure is in a cut set" ' status 0' \
  "$(tools/lint tests/models/howto/trains.alt --observer no_flow 2>/dev/null) status $?"
equal "lint with an observer lists the failures that are in no cut set" 'bus_b.fail b.valve.fail b.pump.fail b.check.fail' \
  "$(tools/lint tests/models/howto/trains_open.alt --observer no_flow | sed -n 's/.* event \(.*\) is in no minimal cut set of no_flow$/\1/p' | paste -sd' ')"
equal "lint with an observer names a unit that is unlike the others of its class" \
  'tests/models/howto/channels.alt:14:19: lint: unit c3 is unlike the other units of its class, Channel: with c1 in its place 2 of 6 cut sets of lost have no twin, as {bus_2.fail, c1.computer.fail, c2.computer.fail}; tools/exchange says more' \
  "$(tools/lint tests/models/howto/channels.alt --observer lost 2>/dev/null)"
equal "lint with an observer says behind all else which failures are in a cut set of another one" 'in_no_cut in_no_cut unset_flow in_other_cut in_other_cut' \
  "$(sed 's/^  observer Boolean no_flow.*/&\n  observer Boolean b_dry = bus_b.state == FAILED or b.valve.state == FAILED;/' tests/models/howto/trains_open.alt >"$work/two.alt"
    tools/lint "$work/two.alt" --observer no_flow --names 2>/dev/null | sed 's/.*\[\(.*\)\]$/\1/' | xargs)"
equal "lint with an observer, without the dropped events" ' status 0' \
  "$(tools/lint examples/ring.alt --observer south_is_deaf --drop north.mend,east.mend,south.mend,west.mend 2>/dev/null) status $?"
equal "lint with an observer whose cut sets are refused" 'lint: examples/ring.alt: outside: S6 at north.works (status 4) status 3' \
  "$(tools/lint examples/ring.alt --observer south_is_deaf 2>&1) status $?"
equal "lint finds the nine things that vote.alt leaves open, and the two that vote2.alt reads nowhere" '9 2' \
  "$(tools/lint tests/beside/vote.alt | wc -l) $(tools/lint tests/beside/vote2.alt | wc -l)"
for model in tests/beside/*.alt; do
  case $model in */vote*) continue ;; esac
  equal "lint has nothing to say of $model" ' status 0' "$(tools/lint "$model" 2>/dev/null) status $?"
done
got=$(for model in tests/mistakes/*.alt tests/literature/*.alt; do tools/lint "$model" >/dev/null 2>&1; echo $?; done | sort | uniq -c | tr -s ' ')
equal "lint refuses each model that the program refuses" ' 68 3' "$got"
