#!/usr/bin/env bash
# `to_open_psa`: the fault trees of the example plants with a listing and of ten random static models, solved by a plain
# script over all subsets of their events, have exactly the program's cuts; the XML has the form of tools/open_psa.rng;
# names are mapped back.
. "$(dirname "$0")/points.bash"
usage to_open_psa

# agrees WHAT MODEL CUTS WORDS..: the fault tree and the exported cuts, solved, are the program's cuts.
agrees() {
  local what=$1 model=$2 cuts=$3 said
  shift 3
  tools/to_open_psa tree "$model" "$@" >"$work/$what.tree.xml" && tools/to_open_psa cuts "$model" "$@" >"$work/$what.cuts.xml"
  said=$(python3 tools/tests/solve_open_psa.py "$work/$what.tree.xml" | tools/compare - "$cuts" 2>&1)
  if [ $? -eq 0 ]; then passed "the fault tree of $what has the program's cuts"; else failed "the fault tree of $what has the program's cuts" "$said"; fi
  said=$(python3 tools/tests/solve_open_psa.py "$work/$what.cuts.xml" | tools/compare - "$cuts" 2>&1)
  if [ $? -eq 0 ]; then passed "the exported cuts of $what are the program's"; else failed "the exported cuts of $what are the program's" "$said"; fi
}

for plant in brake bus hydraulic pumps ring; do
  read -ra words <<<"$(words_of $plant)"
  agrees $plant "examples/$plant.alt" "examples/$plant.cuts" "${words[@]}"
done

while read -r model observer; do
  "$ALTARICA" cuts "tests/beside/$model.alt" --observer "$observer" >"$work/beside.cuts"
  agrees "$model" "tests/beside/$model.alt" "$work/beside.cuts" --observer "$observer"
done <<'END'
ccf3 lost
net dark
net2 dark
standby2 lost
train2 lost
twoway2 lost
wear lost
END
for model in standby:lost train:lost twoway3:lost vote:no_trip; do
  IFS=: read -r name observer <<<"$model"
  equal "what the program refuses of $name is not exported" 3 \
    "$(tools/to_open_psa tree "tests/beside/$name.alt" --observer "$observer" >/dev/null 2>&1; echo $?)"
done

alone=0
for seed in 1 2 3 11 26 53 73 83 86 92; do
  python3 tools/tests/random_static.py $seed >"$work/random.alt"
  "$ALTARICA" cuts "$work/random.alt" --observer lost >"$work/random.cuts"
  agrees "random model $seed" "$work/random.alt" "$work/random.cuts" --observer lost
  python3 tools/tests/solve_open_psa.py "$work/random model $seed.tree.xml" value-1 | tools/compare - "$work/random.cuts" >/dev/null || alone=$((alone + 1))
done
equal "without the gates of order and exclusion all ten have other sets" 10 $alone

tools/to_open_psa tree tests/beside/wear.alt --observer odd >"$work/odd.tree.xml"
equal "where failures of one part exclude each other, no set has them both" '' "$(python3 tools/tests/solve_open_psa.py "$work/odd.tree.xml")"
equal "without that gate one has" '{v.jam_open, v.jam_shut}' "$(python3 tools/tests/solve_open_psa.py "$work/odd.tree.xml" value-1)"

if have xmllint; then
  for file in "$work"/*.xml; do
    holds "the form of $(basename "$file" .xml)" xmllint --noout --relaxng tools/open_psa.rng "$file"
  done
else
  skipped "the form of the XML" libxml2-utils
fi

sed 's/[{}]//g; s/,//g; s/\./-/g; /count/d' examples/ring.cuts >"$work/result"
equal "names are mapped back" "$(cat examples/ring.cuts)" "$(tools/to_open_psa back "$work/ring.tree.xml" "$work/result")"
tools/to_open_psa tree tests/open_psa/two_ways.alt --observer lost >"$work/two.tree.xml"
echo e >"$work/result"
equal "the number of a way is mapped back too" '{e#2} count 1 ' "$(tools/to_open_psa back "$work/two.tree.xml" "$work/result" | tr '\n' ' ')"
printf '<report><sum-of-products><product order="2"><basic-event name="east-fail"/><basic-event name="west-fail"/></product></sum-of-products></report>\n' >"$work/result"
equal "names of a report are mapped back" '{east.fail, west.fail} count 1 ' "$(tools/to_open_psa back "$work/ring.tree.xml" "$work/result" | tr '\n' ' ')"
printf '<report><product order="2"><basic-event name="east-fail"/><not><basic-event name="west-fail"/></not></product></report>\n' >"$work/result"
equal "a product by which an event has not happened is refused" '4 0 1' \
  "$(tools/to_open_psa back "$work/ring.tree.xml" "$work/result" >"$work/back" 2>"$work/said"; echo $?) $(wc -c <"$work/back") $(grep -c 'has not happened' "$work/said")"
printf 'no xml\n' >"$work/no.xml"
equal "what is no XML is refused" 4 "$(tools/to_open_psa back "$work/no.xml" "$work/result" 2>/dev/null; echo $?)"
grep -o '[a-z_.]*\.\(fail\|cut\)\|lose_head_end' examples/ring.cuts | sort -u | sed 's/$/ 1.5e-3/' >"$work/numbers"
read -ra words <<<"$(words_of ring)"
equal "numbers are copied" 9 "$(tools/to_open_psa cuts examples/ring.alt "${words[@]}" --numbers "$work/numbers" | grep -c '<float value="1.5e-3" />')"
equal "a tree takes no numbers, and it says why" '2 1' \
  "$(tools/to_open_psa tree examples/ring.alt "${words[@]}" --numbers "$work/numbers" >/dev/null 2>"$work/said"; echo $?) $(grep -c 'would be too low' "$work/said")"
refuses() { tools/to_open_psa cuts examples/ring.alt "${words[@]}" --numbers "$1" 2>&1 | sed "s|$work|WORK|"; }
{ cat "$work/numbers"; echo 'north.fail 0.5'; } >"$work/twice"
equal "a number twice is refused" 'to_open_psa: WORK/twice:10: `north.fail` has a number already' "$(refuses "$work/twice")"
{ cat "$work/numbers"; echo 'nroth.fail 0.5'; } >"$work/strange"
equal "a number of no event is refused" 'to_open_psa: WORK/strange:10: the model has no event `nroth.fail`' "$(refuses "$work/strange")"
sed '1s/ .*/ 1.5/' "$work/numbers" >"$work/above"
equal "a number above 1 is refused" 'to_open_psa: WORK/above:1: 1.5 is above 1' "$(refuses "$work/above")"
sed 1d "$work/numbers" >"$work/lacking"
equal "an event without a number is refused" 1 "$(refuses "$work/lacking" | grep -c 'has no number for')"
equal "numbers of dropped events and of events that are in no cut are taken" 9 \
  "$({ cat "$work/numbers"; echo 'north.mend 0.1'; } >"$work/more"; tools/to_open_psa cuts examples/ring.alt "${words[@]}" --numbers "$work/more" | grep -c '<float')"
equal "--probability is no word of this helper" 2 "$(tools/to_open_psa cuts examples/ring.alt "${words[@]}" --probability >/dev/null 2>&1; echo $?)"
equal "without them there are none" 0 "$(grep -c '<float' "$work/ring.tree.xml")"
equal "a model with a conflict is not exported" 'to_open_psa: examples/conflict.alt: fault: {upper.lose_sensor}: flow setpoint has two values (status 5) status 3' \
  "$(tools/to_open_psa tree examples/conflict.alt --observer low 2>&1) status $(tools/to_open_psa tree examples/conflict.alt --observer low >/dev/null 2>&1; echo $?)"

# What is read of other tools is whole: the line `count N`, the set of no events, reports with a namespace.
printf '{east-fail, west-fail}\n{}\n\ncount 2\n' >"$work/result"
equal "the set of no events is kept" '{east.fail, west.fail} {} count 2 ' "$(tools/to_open_psa back "$work/ring.tree.xml" "$work/result" | tr '\n' ' ')"
printf '{east-fail, west-fail}\ncount 2\n' >"$work/result"
equal "a result with another count than it has sets is refused" '4 0 1' \
  "$(tools/to_open_psa back "$work/ring.tree.xml" "$work/result" >"$work/back" 2>"$work/said"; echo $?) $(wc -c <"$work/back") $(grep -c 'is not whole: count 2, and 1 sets' "$work/said")"
: >"$work/result"
equal "a result of nothing is none" 4 "$(tools/to_open_psa back "$work/ring.tree.xml" "$work/result" >/dev/null 2>&1; echo $?)"
printf 'east-fail\302\240west-fail\n' >"$work/result"
equal "bytes that are no ASCII part no names" 4 "$(tools/to_open_psa back "$work/ring.tree.xml" "$work/result" >/dev/null 2>&1; echo $?)"
report_of() { printf '<r:report xmlns:r="urn:results"><r:sum-of-products products="%s"><r:product order="1"><r:basic-event name="south-fail"/></r:product></r:sum-of-products></r:report>\n' "$1"; }
report_of 1 >"$work/result"
equal "a report with a namespace" '{south.fail} count 1 ' "$(tools/to_open_psa back "$work/ring.tree.xml" "$work/result" | tr '\n' ' ')"
equal "from standard input" '{south.fail} count 1 ' "$(report_of 1 | tools/to_open_psa back "$work/ring.tree.xml" - | tr '\n' ' ')"
report_of 12 >"$work/result"
equal "a report with fewer products than it says is refused" 4 "$(tools/to_open_psa back "$work/ring.tree.xml" "$work/result" >/dev/null 2>&1; echo $?)"
echo '<html/>' >"$work/result"
equal "and what is no report" 4 "$(tools/to_open_psa back "$work/ring.tree.xml" "$work/result" >/dev/null 2>&1; echo $?)"
