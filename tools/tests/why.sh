#!/usr/bin/env bash
# `why` on each model with a mistake, each refused form of the literature, the models of tests/beside that a command
# refuses, and the example plants: the expected texts, each checked by hand, are tests/why/expected. And the places of
# the grammar that `why` reads with are those of the program.
. "$(dirname "$0")/points.bash"
usage why

# Each block of the file is a line `> WORDS`, then what `why` writes.
mkdir "$work/want"
awk -v to="$work/want/" '/^> / { n++; file = to sprintf("%03d", n); print substr($0, 3) > (file ".words"); next } { print > (file ".text") }' tests/why/expected
for words in "$work"/want/*.words; do
  read -ra line <"$words"
  got=$(tools/why "${line[@]}" 2>&1)
  status=$?
  said=$("$ALTARICA" "${line[@]}" 2>/dev/null)
  last="  line: ${said##*$'\n'} (status $?)"
  equal "why ${line[*]}" "$(cat "${words%.words}.text") status 3 $last" "$got status $status $(grep '^  line: ' <<<"$got")"
done
tried=$(cat "$work"/want/*.words | tr ' ' '\n')
missing=$(for model in tests/mistakes/*.alt tests/literature/*.alt tests/why/*.alt; do grep -qx "$model" <<<"$tried" || echo "$model"; done)
equal "each model of tests/mistakes, tests/literature and tests/why has an expected text" '' "$missing"
equal "each expected text has a cause" "$(ls "$work"/want/*.text | wc -l)" "$(grep -l '^  cause: ' "$work"/want/*.text | wc -l)"

mapfile -t models < <(models_of_cases '*')
got=$(python3 tools/tests/places.py tests/*/*.alt examples/*.alt "${models[@]}" 2>&1)
equal "the grammar refuses what the program refuses, at the same places" '' "$got"

got=$(python3 tools/tests/settled.py examples/*.alt tests/lint/*.alt tests/models/howto/{tie_bars,loop,protection}.alt 2>&1)
equal "the values by which a fault is explained are those of the program, at the start and after each event" '19 models' "$got"

tools/why --json check tests/why/loop.alt >"$work/json"
equal "why --json has file, line, column, rule, cause and the program's answer" \
  "$(tools/why check tests/why/hyphen.alt | sed -n '1s/: syntax.*//p; s/^  cause: //p; s/^  line: //p')" \
  "$(tools/why --json check tests/why/hyphen.alt | python3 -c 'import json, sys; it, = json.load(sys.stdin); print("%(file)s:%(line)d:%(column)d\n%(cause)s\n%(answer)s (status %(status)d)" % it)')"
equal "why --json of what is not refused is an empty list" '[] status 0' "$(tools/why --json check examples/pumps.alt) status $?"
printf 'block B // \033[31mred\n  Boolean s (init = \033]0;title\007true);\nend\n' >"$work/control.alt"
equal "control characters of a model do not reach the terminal" 0 "$(tools/why check "$work/control.alt" | grep -c $'[\001-\010\013-\037]')"
equal "ALTARICA that names no program takes no other one" '4 1' \
  "$(ALTARICA=nosuch tools/why check examples/pumps.alt >"$work/out" 2>"$work/said"; echo $?) $(grep -c 'ALTARICA names nosuch, which is no program' "$work/said")"
cp examples/pumps.alt "$work/-pumps.alt"
equal "-- before a file name is kept" "$(tools/lint examples/pumps.alt 2>&1)" "$(cd "$work" && "$top/tools/lint" -- -pumps.alt 2>&1)"
equal "what is not refused is passed on" "$("$ALTARICA" check examples/pumps.alt)" "$(tools/why check examples/pumps.alt)"
