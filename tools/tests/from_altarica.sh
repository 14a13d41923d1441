#!/usr/bin/env bash
# `from_altarica`: the lists of the models of tests/from_altarica, written back, against all firing orders and against the
# sets that are kept; random models; what a text means against `flat`; texts that stay as they are; refusals and uses.
. "$(dirname "$0")/points.bash"
usage from_altarica
tool=tools/from_altarica
models=tests/from_altarica
here=tools/tests/translate

# What a text means is what the program writes for `flat`.
mapfile -t of_cases < <(models_of_cases '*form*' '*const*' '*clone*')
got=$(python3 $here/elaborated.py examples/*.alt tests/from_altarica/*.alt "${of_cases[@]}" 2>&1 | grep -v "^[0-9]* models$\|symbol_and_flow")
equal "what a text means is what the program writes for flat" '' "$got"

# The kept lists; each is compared with all firing orders.
sed -n 's/^> //p' $models/expected >"$work/asked"
python3 $here/list_of.py "$work/asked" >"$work/got" 2>&1
awk -v to="$work/want" '/^> / { n++ } { print > (to "." n) }' $models/expected
awk -v to="$work/have" '/^> / { n++ } { print > (to "." n) }' "$work/got"
for file in "$work"/want.*; do
  equal "$(head -n 1 "$file" | cut -c3-)" "$(cat "$file")" "$(cat "$work/have.${file##*.}" 2>/dev/null)"
done
missing=$(for model in $models/*.alt; do grep -q "\b$(basename "$model" .alt)\b" "$work/asked" || echo "$model"; done)
equal "each model of $models is asked for" "$models/groups_of_three.alt" "$missing"

# Random models.
for words in "random 7000 7025" "trees 1 12" "random 9000 9008 broadcast" "random 10000 10008 settle"; do
  # shellcheck disable=SC2086
  got=$(python3 $here/against_orders.py $words 2>&1 | grep -v '^conflict in both\|^equal')
  equal "models by chance have the sets of their firing orders: $words" '' "$got"
done

# A hundred and fifty parts in thirty common cause groups.
drop=$(seq 0 149 | sed 's/.*/c&.repair/' | paste -sd,)
$tool $models/groups_of_three.alt --drop "$drop" --map "$work/map" >"$work/new.alt"
"$ALTARICA" cuts "$work/new.alt" --observer lost >"$work/list"
equal "thirty common cause groups" "count 60" "$($tool --back "$work/list" "$work/map" | tail -n 1)"

# A text that is static already stays as it is, and so does what the helper has written; twice gives the same bytes.
changed=$(for model in examples/*.alt tests/models/howto/*.alt; do
  "$ALTARICA" fragment "$model" >/dev/null 2>&1 || continue
  $tool "$model" 2>/dev/null | cmp -s - "$model" || echo "$model"
done)
equal "a static model stays as it is" '' "$changed"
for name in split burns pump_pair; do
  words="--drop startA,startB,endA,endB"
  [ $name = pump_pair ] || words=
  # shellcheck disable=SC2086
  {
    PYTHONHASHSEED=1 $tool $models/$name.alt $words --map "$work/map1" >"$work/one"
    PYTHONHASHSEED=2 $tool $models/$name.alt $words --map "$work/map2" >"$work/two"
    $tool "$work/one" >"$work/three"
  } 2>/dev/null
  holds "$name twice gives the same bytes" cmp "$work/one" "$work/two"
  holds "$name twice gives the same map" cmp "$work/map1" "$work/map2"
  holds "what is made of $name stays as it is" cmp "$work/one" "$work/three"
done

# Each line of a list that is written back replays in the first model and ends with the value.
for observer in failed burnt spared half; do
  $tool $models/burns.alt --map "$work/map" >"$work/new.alt" 2>"$work/notes"
  "$ALTARICA" cuts "$work/new.alt" --observer $observer >"$work/list"
  $tool --back "$work/list" "$work/map" --observer $observer >"$work/back"
  count=$(grep -c '^{' "$work/back")
  for number in $(seq "$count"); do
    tools/line_as_script "$work/back" "$number" >"$work/script"
    equal "line $number of $observer replays in the first model" "  observer $observer = true" \
      "$("$ALTARICA" replay $models/burns.alt "$work/script" | grep "^  observer $observer " | tail -n 1)"
  done
done
equal "an optional part with two transitions is named" "$models/burns.alt:14:20: note: CCF: its part A.failure has several transitions: the event may take one that cannot move it; --broadcast takes the one that can" \
  "$(grep A.failure "$work/notes")"

# Faults, places, and what is refused.
$tool $models/clash.alt --map "$work/map" >"$work/new.alt" 2>/dev/null
"$ALTARICA" cuts "$work/new.alt" --observer wrong >"$work/list"
equal "the fault of a list" "fault: {shock, a.stick}: flow high has two values" "$($tool --back "$work/list" "$work/map" 2>/dev/null)"
line=$(grep -n 'then high := true' "$work/new.alt" | cut -d: -f1)
equal "the place in the first model of a place in the new one" "$models/clash.alt:18:29" "$($tool --place "$work/map" "$line:29")"
$tool $models/parts_one.alt $models/parts_two.alt --map "$work/map" >"$work/new.alt" 2>/dev/null
equal "the same where there are two files" "$models/parts_two.alt:3:38" "$($tool --place "$work/map" "$(grep -n 'flat =' "$work/new.alt" | cut -d: -f1):41")"
equal "what is refused" "$(cat $models/refusals)" "$(python3 $here/refusals.py $models/refusals)"

# answer STATUS WORDS..: the helper ends with this status and says something on standard error alone.
answer() {
  local status=$1 said
  shift
  said=$($tool "$@" 2>&1 >/dev/null)
  equal "from_altarica $* ends with $status" "$status yes" "$? $([ -n "$said" ] && echo yes)"
}
"$ALTARICA" modules examples/brake.alt --observer too_weak >"$work/modules"
answer 4 --back "$work/modules" "$work/map"
answer 4 --back tests/models/TEXTS-pumps.list "$work/map"
answer 4 --back "$work/list" "$work/list"
answer 4 --back "$work/list" none
answer 4 --back "$work/list" "$work/map" --observer none
answer 4 none.alt
answer 4 $models/ccf.alt --map none/map
answer 2 --back "$work/list"
answer 2 --place "$work/map" here
answer 2 $models/ccf.alt --immediate soon
answer 3 tests/mistakes/path.alt

# What the page says of each form is what is done with it.
sed -n 's/^| `\([a-z]*\)` | `.*` | `[a-z]*: .* | \(done\|refused\)[^|]*|$/\1 \2/p' docs/use/FROM_ALTARICA.md | while read -r name outcome; do
  $tool tests/literature/"$name".alt --profile --range 0..9 >/dev/null 2>&1
  equal "the form $name is $outcome" "$outcome" "$([ $? -eq 0 ] && echo "done" || echo refused)"
done

# Events that are left out of a list.
$tool $models/edf.alt --immediate settle --map "$work/map" >"$work/new.alt" 2>/dev/null
"$ALTARICA" cuts "$work/new.alt" --observer dead >"$work/list"
equal "a list without events that happen at once" "{GRID.failure, DG.startFailure} {GRID.failure, DG.failure} {T1.failure, T2.failure, DG.startFailure} \
{T1.failure, T2.failure, DG.failure} {BB.failure} count 5" "$($tool --back "$work/list" "$work/map" --leave-out DG.start 2>/dev/null | tr '\n' ' ' | sed 's/ $//')"

# What is written back is whole, and names of files are written as they came.
name='модель],[1,"'
{ echo '// [1],[2],"'; cat $models/burns.alt; } >"$work/$name.alt"
(cd "$work" && "$top/$tool" "$name.alt" --map "$name.map" >new.alt 2>notes)
"$ALTARICA" cuts "$work/new.alt" --observer failed >"$work/list"
equal "a map of a file with a strange name is read" 0 "$($tool --back "$work/list" "$work/$name.map" >"$work/back" 2>&1; echo $?)"
equal "a place has the name of the file as it came" "$name.alt:4:3" "$($tool --place "$work/$name.map" 5:3)"
equal "and so have the notes" "$name.alt:15:20" "$(sed -n '1s/: note.*//p' "$work/notes")"
sed 2d "$work/list" >"$work/short"
equal "a listing that is not whole is not written back" '4 0 1' \
  "$($tool --back "$work/short" "$work/$name.map" >"$work/back" 2>"$work/said"; echo $?) $(wc -c <"$work/back") $(grep -c 'is not whole: count' "$work/said")"
equal "a line that is none of a listing is refused" 4 "$({ echo 'no cut'; cat "$work/list"; } | $tool --back - "$work/$name.map" >/dev/null 2>&1; echo $?)"
equal "a listing with a byte order mark and other ends of lines" "$($tool --back "$work/list" "$work/$name.map" 2>/dev/null)" \
  "$({ printf '\357\273\277'; sed 's/$/\r/' "$work/list"; } | $tool --back - "$work/$name.map" 2>/dev/null)"
equal "the set of no events is written back" '{} count 1 ' "$(printf '{}\ncount 1\n' | $tool --back - "$work/$name.map" | tr '\n' ' ')"
equal "a map is written whole or not at all" '4' "$($tool "$work/$name.alt" --map "$work/none/map" >/dev/null 2>&1; echo $?)"
for text in '[[[' '{"files":1,"events":2,"places":3,"text":4,"main":5}' '{"files":[],"events":{},"places":[],"text":"","main":null}' null; do
  printf '%s\n' "$text" >"$work/wrong"
  equal "this is no map: $text" '4 1' "$($tool --back "$work/list" "$work/wrong" >/dev/null 2>"$work/said"; echo $?) $(grep -c 'this is no map' "$work/said")"
done
equal "places begin at 1:1, and values and events are those of the first model" '2 4 4' \
  "$(cp "$work/$name.map" "$work/plain"; for words in "--place $work/plain 1:0" "--back $work/list $work/plain --observer failed --value broken" "--back $work/list $work/plain --leave-out nosuch"; do
    # shellcheck disable=SC2086
    $tool $words >/dev/null 2>&1; echo $?; done | xargs)"
printf 'block A\n  Boolean s (init = \033]0;title\007 true);\nend\n' >"$work/control.alt"
equal "control characters of a model do not reach the terminal" '4 0' \
  "$($tool "$work/control.alt" >/dev/null 2>"$work/said"; echo $?) $(grep -c $'[\001-\010\013-\037]' "$work/said")"
