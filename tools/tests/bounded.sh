#!/usr/bin/env bash
# `--max-order`: the cuts of at most K events are those of the listing of all, and those that brute force finds; lists of them are
# checked; what the script, `why` and the report say of a listing that is too large, and the helpers of a list up to an order.
. "$(dirname "$0")/points.bash"

# How many random models; a program without its proofs takes many times as long.
if grep -q __asan_init "$ALTARICA"; then models=${ALTARICA_MODELS:-100}; else models=${ALTARICA_MODELS:-500}; fi
equal "small cut sets, conflicts and checked lists of $models random models are those that can happen" "$models models" \
  "$(python3 tools/tests/bounded.py "$models" 2>&1 | head -n 5)"
plants=(examples/*.alt tests/models/howto/*.alt)
equal "the small cut sets of the example plants and of the patterns are those of the whole listing" "${#plants[@]} models" \
  "$(python3 tools/tests/bounded.py "${plants[@]}" 2>&1 | head -n 5)"
branching=$((models / 50 + 1))
for seed in $(seq "$branching"); do python3 tools/tests/random_static.py "$seed" >"$work/static$seed.alt"; done
equal "so are those of models whose modes branch" "$branching models" \
  "$(python3 tools/tests/bounded.py "$work"/static*.alt 2>&1 | head -n 5)"
for seed in $(seq 20); do python3 tools/tests/interleaved.py "$seed" >"$work/across$seed.alt"; done
equal "and of models whose trees of modes lie across each other" '20 models 20' \
  "$(python3 tools/tests/bounded.py "$work"/across*.alt 2>&1 | head -n 5) $(for it in "$work"/across*.alt; do "$ALTARICA" cuts "$it" --observer o0 --max-order 1; done | grep -c '^count')"

usage_line=$("$ALTARICA")
words() { for order; do "$ALTARICA" cuts examples/brake.alt --observer too_weak --max-order="$order" | tail -n 1; done; }
equal "a number of events that is none, or another command, is no use" "$(printf '%s\n' {,}{,}{,}"$usage_line")" "$(words 0 01 1001 +1 2.0 two ''
  "$ALTARICA" modules examples/brake.alt --observer too_weak --max-order 2)"
equal "the least and the greatest number" $'count 1 up to order 1\ncount 28 up to order 1000' "$(words 1 1000)"
equal "S8 is not asked" 'count 1 up to order 2' "$("$ALTARICA" cuts tests/models/refusals/S8.alt --observer first --max-order 2 | tail -n 1)"

# The script, over a program that is kept.
copy=$work/copy
mkdir -p "$copy/out" "$copy/it's here"
cp altarica "$copy/"
cp examples/brake.alt examples/brake.cuts "$copy/it's here/"
for it in crates crates.txt docs tools examples tests; do ln -s "$top/$it" "$copy/$it"; done
cp "$ALTARICA" "$copy/out/altarica"
cd "$copy" || exit 1
script() { (unset ALTARICA; ./altarica "$@" 2>"$work/said" </dev/null); }
{
  script --version | sed -n 's/^sum of the sources and proofs: \(.*\)/\1  -/p'
  sha256sum <out/altarica
  echo stand-in
  find out/altarica -printf '%s %T@ %C@ %i\n'
} >out/altarica.made_of
equal "the script passes the option" $'{bus.fail}\ncount 1 up to order 1 status 0 said ' \
  "$(script cuts examples/brake.alt --observer too_weak --max-order 1) status $? said $(cat "$work/said")"
# ready WORDS..: the status of a listing, and what the command that is named behind it writes last, with its status.
ready() {
  local status
  script "$@" >"$work/out"
  status=$?
  sed -n 's/.* may still be listed: //p' "$work/said" >"$work/command"
  echo "$status $(cat "$work/out"), then $( (unset ALTARICA; bash "$work/command" 2>&1 </dev/null) | tail -n 1)"
}
equal "a list that is too large names the command for its single and double failures" '6 nodes: 1, then count 28 up to order 2' \
  "$(ready cuts examples/brake.alt --observer too_weak --nodes 1)"
equal "also with a name that has to be quoted, behind --" '6 nodes: 1, then count 28 up to order 2' \
  "$(ready cuts --nodes=1 --observer too_weak -- "it's here/brake.alt")"
equal "so does a list that is checked" '6 nodes: 1, then yes up to order 2' \
  "$(ready checkcuts "it's here/brake.alt" "it's here/brake.cuts" --observer too_weak --nodes 1)"
equal "modules name the listing" '6 nodes: 1, then count 28 up to order 2' "$(ready modules examples/brake.alt --observer too_weak --nodes 1)"
equal "too large for double failures: the single ones" '6 nodes: 1, then count 1 up to order 1' \
  "$(ready cuts examples/brake.alt --observer too_weak --nodes 1 --max-order 2)"
equal "too large with more events: the double failures" '6 nodes: 1, then count 28 up to order 2' \
  "$(ready cuts examples/brake.alt --observer too_weak --nodes 1 --max-order 3)"
equal "too many events" '4 outside: S8 at main, then count 1 up to order 2' "$(ready cuts tests/models/refusals/S8.alt --observer=first)"
said=$(script cuts examples/supply.alt --observer dark; echo "status $?")
equal "a model that is outside by another rule has no such command" $'outside: S1 at lose_grid\nstatus 4' "$said$(cat "$work/said")"
said=$(script cuts examples/ring.alt --observer south_is_deaf --drop north.mend,east.mend,south.mend,west.mend --nodes 1 --max-order 1; echo "status $?")
equal "nor has one whose single failures are too many" $'nodes: 1\nstatus 6' "$said$(cat "$work/said")"
# wrong WORDS..: the line and the status of the script, and what it says.
wrong() { script cuts examples/brake.alt --observer too_weak "$@" >"$work/out"; echo "$? $(cat "$work/out") $(cat "$work/said")"; }
what='altarica: --max-order takes the largest number of events of a cut, from 1 to 1000, in digits without leading zeros'
for order in 0 01 1001 two ''; do
  equal "the script says what --max-order takes in place of \`$order\`" "1 $usage_line $what" "$(wrong --max-order "$order")"
done
equal "also behind =, and where it is the last word" "$(printf "1 $usage_line $what\n%.0s" 1 2)" "$(wrong --max-order=0; wrong --max-order)"
script modules examples/brake.alt --observer too_weak --max-order 2 >"$work/out"
equal "the script says which commands take it" "1 $usage_line altarica: --max-order is an option of cuts and checkcuts alone" \
  "$? $(cat "$work/out") $(cat "$work/said")"
script cuts nowhere.alt --observer --max-order >/dev/null
equal "a word that is none of its places is not spoken of" '' "$(grep max-order "$work/said")"
printf '#!/bin/sh\necho "$$" >"%s/pid"\nexec sleep 60\n' "$work" >"$work/sleeper"
chmod +x "$work/sleeper"
cp out/altarica.made_of "$work/note"
cp "$work/sleeper" out/altarica
{ sed -n 1p "$work/note"; sha256sum <out/altarica; echo stand-in; find out/altarica -printf '%s %T@ %C@ %i\n'; } >out/altarica.made_of
(unset ALTARICA; exec ./altarica cuts examples/brake.alt --observer too_weak >/dev/null 2>&1) &
child=$!
for _ in $(seq 100); do [ ! -s "$work/pid" ] || break; sleep 0.1; done
kill "$child"
wait "$child"
equal "who ends the script ends the program" 'status 143, gone' "status $?, $(kill -0 "$(cat "$work/pid")" 2>/dev/null || echo gone)"
cd "$top" || exit 1

# `why` and the report.
try() { sed -n 's/^  try: //p'; }
equal "why has the command" './altarica cuts --observer=too_weak --max-order 2 -- examples/brake.alt' \
  "$(tools/why modules --nodes 1 --observer too_weak -- examples/brake.alt | try)"
cp examples/brake.alt "$work/it's \$HOME.alt"
equal "with its words quoted" 'count 28 up to order 2' \
  "$(tools/why cuts "$work/it's \$HOME.alt" --observer too_weak --nodes 1 | try | sed "s|^./altarica|'$ALTARICA'|" | bash | tail -n 1)"
equal "of another refusal it has none" '' "$(tools/why cuts examples/supply.alt --observer dark | try; tools/why check tests/mistakes/semi.alt | try)"
equal "why says what the option takes" '  cause: --max-order is the largest number of events of a cut, from 1 to 1000 without leading zeros' \
  "$(tools/why cuts examples/brake.alt --observer too_weak --max-order 0 | sed -n 2p)"
tools/report examples/brake.alt --observer too_weak --nodes 1 --out "$work/page.html" 2>"$work/said"
equal "the report has the command, and says that it has the option" '1 1' \
  "$(grep -c 'try: ./altarica cuts .* --max-order 2' <<<"$(sed -n '/id="cuts0"/,/<.section>/p' "$work/page.html")") $(grep -c 'with --max-order 2' "$work/said")"
tools/report examples/brake.alt --observer too_weak --max-order 2 --out "$work/page.html"
found() { grep -o '<b class="found">.*' "$work/page.html" | sed 's|</td>.*||; s/<[^>]*>//g'; }
equal "a report up to an order says so" '28 minimal cut sets of at most 2 events 1 with 1 event 27 with 2 events; larger ones are not listed, and a conflict of more events is not looked for' "$(found)"
equal "and takes no number that is none" 2 "$(tools/report examples/brake.alt --observer too_weak --max-order 0 >/dev/null 2>&1; echo $?)"
equal "--explain max-order says what it promises" 1 "$(tools/explain max-order | grep -c 'conflict of more than K events is not looked for')"
equal "and so it does of the last lines" "$(tools/explain max-order)" "$(tools/explain 'yes up to order 2')"

tools/report tests/models/refusals/S8.alt --observer first --max-order 2 --out "$work/page.html" 2>"$work/said"
equal "also of a model with too many events for trees of modes" '0 1 -1' \
  "$? $(found | sed 's/ .*//') $(sed -n 's/.*"trees":\[\([^]]*\)\].*/\1/p' "$work/page.html")"
equal "the test for single failures of docs/use/IN_CI.md takes such a model" '1 single failures for first: {p1.r1.c1.fail}' \
  "$(said=$(tests/ci/no_single_failure tests/models/refusals/S8.alt first); echo "$? "$said)"

# Lists up to an order.
ring() { "$ALTARICA" cuts examples/ring.alt --observer south_is_deaf --drop north.mend,east.mend,south.mend,west.mend "$@"; }
ring >"$work/all"
ring --max-order 1 >"$work/singles"
ring --max-order 2 >"$work/doubles"
sed '/^{[^,]*,[^,]*}$/d; s/^count.*//' "$work/doubles" >"$work/own"
compared() { tools/compare "$@" 2>&1 | sed "s|$work/||g" | tail -n 1; }
equal "compare up to an order" 'both 12, first alone 0, second alone 0 up to order 2' "$(compared "$work/all" "$work/doubles" --order 2)"
equal "compare of two lists up to one order says so" 'both 12, first alone 0, second alone 0 up to order 2' "$(compared "$work/doubles" "$work/doubles")"
equal "compare takes no list up to an order for a whole one" 'compare: one list has all cuts, the other the cuts up to order 2: --order 2 compares them' \
  "$(compared "$work/all" "$work/doubles")"
equal "nor for one up to another order" 'compare: singles has the cuts up to order 1 alone' "$(compared "$work/singles" "$work/doubles" --order 2)"
equal "compare finds what is gone" '+ {north_east.cut, west_north.cut} both 3, first alone 0, second alone 9 up to order 2' \
  "$(tools/compare "$work/own" "$work/doubles" --order 2 | grep -v '^+ .*\(east_south\|fail\|south_west\)' | xargs -d '\n')"
equal "larger cuts play no part" 'both 2, first alone 0, second alone 0 up to order 1 status 0' \
  "$(printf '{a}\n{b, b}\n{c, d}\n' | tools/compare - <(printf '{b}\n{a}\n{e, f}\n') --order 1) status $?"
sed 's/count 12/count 11/' "$work/doubles" >"$work/short"
equal "a list up to an order that is not whole is refused" 'compare: short is not whole: count 11, and 12 cuts' "$(compared "$work/short" "$work/doubles")"
equal "compare takes no number that is none" '2 2 2' "$(for order in 0 1001 x; do tools/compare "$work/all" "$work/all" --order $order >/dev/null 2>&1; echo $?; done | xargs)"
equal "order keeps the last line" 'count 12 up to order 2' "$(tools/order examples/ring.alt "$work/doubles" --drop north.mend,east.mend,south.mend,west.mend | tail -n 1)"
grep -o '[a-z_.]*\.[a-z]*\|lose_head_end' "$work/doubles" | sort -u | sed 's/$/ 0.1/' >"$work/numbers"
equal "quantify says what is left out" '1 0.39' \
  "$(tools/quantify "$work/doubles" "$work/numbers" 2>"$work/said" >"$work/out"; echo "$(grep -c 'up to order 2 alone: what larger cut sets add .* is left out' "$work/said") $(sed -n 's/^rare-event sum *//p' "$work/out")")"
equal "exchange says what is not seen" 1 "$(tools/exchange examples/ring.alt "$work/doubles" 2>&1 | grep -c 'up to order 2 alone: .* larger cuts is not seen')"
printf '<opsa-mef><model-data><define-basic-event name="a-b"><label>a.b</label></define-basic-event></model-data></opsa-mef>' >"$work/names.xml"
equal "to_open_psa back keeps the last line" $'{a.b}\ncount 1 up to order 2' \
  "$(printf '{a-b}\ncount 1 up to order 2\n' >"$work/result"; tools/to_open_psa back "$work/names.xml" "$work/result")"
equal "effects up to an order" 'observer  cut sets up to order 1  of 1' \
  "$(tools/effects examples/brake.alt too_weak --orders --max-order 1 2>"$work/said" | head -n 1)"
equal "and it says so" 'effects: the cut sets of at most 1 event alone: larger ones are not counted' "$(cat "$work/said")"
equal "a rule on single failures is asked with it, one on two failures needs two" '1 single too_weak: {bus.fail}; 2' \
  "$(tools/effects examples/brake.alt --no-single too_weak --max-order 1 2>"$work/said" >"$work/out"; echo "$? $(cat "$work/out"); $(
    tools/effects examples/brake.alt --apart too_weak "$work/out" --max-order 1 >/dev/null 2>&1; echo $?)")"
equal "line_as_script takes a line of such a list" 'fire east.fail fire west.fail' "$(tools/line_as_script "$work/doubles" 3 | sed 1d | xargs)"
equal "so does story" "$(tools/story examples/ring.alt "$work/all" 3 --observer south_is_deaf)" "$(tools/story examples/ring.alt "$work/doubles" 3 --observer south_is_deaf)"
tools/from_altarica tests/from_altarica/burns.alt --map "$work/map" >"$work/new.alt" 2>"$work/said"
"$ALTARICA" cuts "$work/new.alt" --observer failed --max-order 1 >"$work/new.cuts"
equal "from_altarica --back takes no list up to an order" '4 1' \
  "$(tools/from_altarica --back "$work/new.cuts" "$work/map" >"$work/out" 2>&1; echo "$? $(grep -c 'this is a listing up to an order: an event of the new model may be several of the first' "$work/out")")"
