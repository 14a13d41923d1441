#!/usr/bin/env bash
# compare_models, quantify and exchange: examples by hand, random models by brute force over `replay`, and numbers with scram.
. "$(dirname "$0")/points.bash"
for tool in compare_models quantify exchange; do usage "$tool"; done

printf '{a.fail}\n{b.fail, c.fail}\ncount 2\n' >"$work/list"
printf '// numbers\na.fail 0.1\nb.fail, 0.5\nc.fail 2.0e-1\n' >"$work/numbers"
equal "numbers by hand" 'rare-event sum           0.2
min-cut upper bound      0.19
cut sets                 2

event   probability  cut sets  Fussell-Vesely  Birnbaum
a.fail  0.1          1         0.5             1
c.fail  0.2          1         0.5             0.5
b.fail  0.5          1         0.5             0.2' "$(tools/quantify "$work/list" "$work/numbers")"
equal "the cut sets, the most likely one first" 'probability,share,events,cut set
0.1,0.5,1,{a.fail}
0.1,0.5,2,"{b.fail, c.fail}"' "$(tools/quantify "$work/list" "$work/numbers" --cuts --csv)"
refused() { for lines; do printf "$lines" >"$work/wrong"; tools/quantify "$work/list" "$work/wrong" >"$work/out" 2>&1; echo $?; done | xargs; }
equal "numbers that are missing, too large, given twice or none" '4 4 4 4' \
  "$(refused 'a.fail 0.1\nb.fail 1\n' 'a.fail 0.1\nb.fail 1.5\nc.fail 0\n' 'a.fail 0.1\na.fail 0.1\nb.fail 0\nc.fail 0\n' 'a.fail much\n')"

cat >"$work/rates.alt" <<'END'
class Part
  Boolean ok (init = true);
  parameter Real rate = 2.0 * 1.0e-3;
  event fail (delay = exponential(rate));
  transition fail: ok -> ok := false;
end
class Pair
  Part x (rate = owner.shared / 2);
  Part y;
end
block B
  Part p;
  Part q (rate = 4.0e-3);
  Pair pair (y.rate = 5.0e-3);
  block r
    parameter Real chance = 0.25;
    Boolean ok (init = true);
    event fail (delay = constant(chance)), age (delay = Weibull(1, 2));
    transition fail: ok -> ok := false;
  end
end
END
sed -i 's/owner.shared . 2/3.0e-3/' "$work/rates.alt"
printf '{p.fail}\n{q.fail}\n{pair.x.fail}\n{pair.y.fail}\n{r.fail}\ncount 5\n' >"$work/list_of_rates"
equal "rates and settings of parameters, with a mission time" \
  "$(python3 -c 'import math; [print("%s %.9f" % (n, 1 - math.exp(-l * 100))) for n, l in (("p.fail", 2e-3), ("q.fail", 4e-3), ("pair.x.fail", 3e-3), ("pair.y.fail", 5e-3))]; print("r.fail 0.250000000")' | sort)" \
  "$(tools/quantify "$work/list_of_rates" --model "$work/rates.alt" --time 100 --csv | sed 1d | awk -F, '{ printf "%s %.9f\n", $1, $2 }' | sort)"
equal "a delay of another form has no number, and a rate needs a time" '4 4' "$(echo '{r.age}' >"$work/aged"
  for words in "$work/aged --time 1" "$work/list_of_rates"; do tools/quantify $words --model "$work/rates.alt" >"$work/out" 2>&1; echo $?; done | xargs)"

equal "two versions that are the same" 'dry: 3 cut sets before, 3 after: the same status 0' \
  "$(tools/compare_models examples/pumps.alt examples/pumps.alt --drop main_pump.start,standby_pump.start,standby_pump.stop 2>&1) status $?"
sed 's/Part valve;/Part valve, filter;/; s/valve.works;/valve.works and filter.works;/; s/dry =/parched =/' examples/pumps.alt >"$work/new.alt"
equal "events and observers that are new and gone" '+ event filter.fail
- observer dry
+ observer parched status 1' "$(tools/compare_models examples/pumps.alt "$work/new.alt" --drop main_pump.start,standby_pump.start,standby_pump.stop 2>&1) status $?"
equal "an observer of one version alone is refused where it is asked" 3 \
  "$(tools/compare_models examples/pumps.alt "$work/new.alt" --observer dry --drop main_pump.start,standby_pump.stop >"$work/out" 2>&1; echo $?)"

equal "like units that can be exchanged" '0 2' "$(tools/exchange examples/brake.alt examples/brake.cuts >"$work/out" 2>&1; echo $?) $(wc -l <"$work/out")"
equal "a channel on the wrong bus" '  c1 and c3: 2 of 6 cut sets have no twin, as {bus_2.fail, c1.computer.fail, c2.computer.fail}' \
  "$("$ALTARICA" cuts tests/models/howto/channels.alt --observer lost | tools/exchange tests/models/howto/channels.alt - | tail -n 1)"
sed 's/c4.power := bus_1/c4.power := bus_2/' tests/models/howto/channels.alt >"$work/right.alt"
equal "on the right bus, and the halves together" '1 0' "$("$ALTARICA" cuts "$work/right.alt" --observer lost >"$work/right"
  for words in '' '--with bus_1=bus_2,c1=c3,c2=c4'; do tools/exchange "$work/right.alt" "$work/right" $words >"$work/out" 2>&1; echo $?; done | xargs)"

equal "the answers on random models are those of brute force" '5 models' "$(python3 tools/tests/listing.py 5 2>&1)"

# Of an independent tool: the sum of the rare-event approximation and the min-cut upper bound.
if have scram; then
  model=tests/models/howto/aircraft.alt
  "$ALTARICA" cuts $model --observer brakes_lost >"$work/cuts"
  tools/quantify "$work/cuts" --model $model --time 1000 --csv | sed 1d | cut -d, -f1,2 | tr , ' ' >"$work/numbers"
  tools/to_open_psa cuts $model --observer brakes_lost --numbers "$work/numbers" >"$work/tree.xml"
  for form in rare-event mcub; do
    scram --probability 1 --$form "$work/tree.xml" -o "$work/report.xml" 2>"$work/said"
    wanted=$(sed -n 's/.*<sum-of-products[^>]* probability="\([^"]*\)".*/\1/p' "$work/report.xml")
    got=$(tools/quantify "$work/cuts" "$work/numbers" | sed -n "s/^$([ $form = mcub ] && echo 'min-cut upper bound' || echo 'rare-event sum') *//p")
    holds "scram has the same number, $form" python3 -c "import math; assert math.isclose($wanted, $got, rel_tol=1e-4), '$wanted $got'"
  done
else
  skipped "the numbers with scram" scram
fi

# A rate of a clone is not read: it has the settings of what it copies. A list is a set of cut sets. A model is not written over.
cat >"$work/clone.alt" <<'END'
class P
  parameter Real r = 1.0e-3;
  Boolean ok (init = true);
  event fail (delay = exponential(r));
  transition
    fail: ok -> ok := false;
end
block M
  P a (r = 5.0e-1);
  clones a as b;
  observer Boolean lost = not a.ok and not b.ok;
end
END
"$ALTARICA" cuts "$work/clone.alt" --observer lost >"$work/clone.cuts"
equal "the rate of a clone is asked for" "4 quantify: the delay of \`b.fail\` cannot be read from the text: give a number in a file" \
  "$(said=$(tools/quantify "$work/clone.cuts" --model "$work/clone.alt" --time 1 2>&1); echo "$? $said")"
printf '%s\n' '{a, b}' '{b, a}' '{c}' '{c}' 'count 4' >"$work/twice.cuts"
printf '%s\n' 'a 0.1' 'b 0.1' 'c 0.01' >"$work/numbers"
equal "a cut set that a list has twice counts once" "rare-event sum           0.02" "$(tools/quantify "$work/twice.cuts" "$work/numbers" 2>&1 | head -n 1)"
cp "$work/clone.alt" "$work/kept.alt"
statuses=$(tools/report "$work/kept.alt" --observer lost --out "$work/kept.alt" >/dev/null 2>&1; echo -n "$? "
  tools/draw units "$work/kept.alt" --out "$work/kept.alt" >/dev/null 2>&1; echo -n "$? "
  tools/from_altarica "$work/kept.alt" --map "$work/kept.alt" >/dev/null 2>&1; echo -n "$? "
  tools/compare_models "$work/kept.alt" "$work/kept.alt" --observer '' >/dev/null 2>&1; echo -n "$? "
  tools/effects "$work/kept.alt" --no-single , >/dev/null 2>&1; echo -n "$? "
  cmp -s "$work/kept.alt" "$work/clone.alt" && echo kept)
equal "a model that is read is not written over, and a question names an observer" '2 2 2 2 2 kept' "$statuses"

# Aliases of a list are followed, and observers of one version alone are named whatever their type.
sed 's/^{bus_2\.fail/{second.fail/' "$work/right" >"$work/aliased"
sed 's/^end$/&/; s/^block \(.*\)$/block \1\n  embeds bus_2 as second;/' "$work/right.alt" >"$work/aliased.alt"
equal "a list with an alias is the list without it" "$(tools/exchange "$work/right.alt" "$work/right")" "$(tools/exchange "$work/aliased.alt" "$work/aliased")"
equal "and has lines with the alias" yes "$(grep -q second "$work/aliased" && "$ALTARICA" check "$work/aliased.alt" >/dev/null && echo yes)"
sed '/observer Boolean lost/s/observer.*/&\n  observer Integer feeds = count(bus_1.ok);/' "$work/right.alt" >"$work/typed.alt"
equal "an observer that is not Boolean is named where one version alone has it" '+ observer feeds, which is not Boolean' \
  "$(tools/compare_models "$work/right.alt" "$work/typed.alt" 2>&1 | grep feeds)"
sed 's/observer Boolean lost = \(.*\);/observer Integer lost = count(\1);/' "$work/right.alt" >"$work/turned.alt"
equal "and one that is no longer Boolean" '- observer lost + observer lost, which is not Boolean ' \
  "$(tools/compare_models "$work/right.alt" "$work/turned.alt" 2>&1 | grep observer | tr '\n' ' ')"
printf 'a.fail\2400.1\nb.fail 0.1\nc.fail 0.1\n' >"$work/wrong"
equal "bytes that are no ASCII part no label and number" 4 "$(tools/quantify "$work/list" "$work/wrong" >/dev/null 2>&1; echo $?)"
sed 's/Boolean ok/Boolean okay/' "$work/right.alt" >"$work/refused.alt"
equal "a refusal names the model, of two the one that is refused" 'compare_models: WORK/refused.alt: rule: L10 at 5:20 (status 3)' \
  "$(tools/compare_models "$work/right.alt" "$work/refused.alt" 2>&1 | sed "s|$work|WORK|")"
equal "a list of another model is refused" '4 1' \
  "$(echo '{nosuch.fail}' | tools/exchange "$work/right.alt" - >"$work/out" 2>"$work/said"; echo "$? $(grep -c 'the model has no event nosuch.fail' "$work/said")")"
printf 'a.fail 1e-400\nb.fail 0\nc.fail 0\n' >"$work/wrong"
equal "a number that is too small to be reckoned with is refused" 4 "$(tools/quantify "$work/list" "$work/wrong" >/dev/null 2>&1; echo $?)"
printf 'a.fail 0\nb.fail 0\nc.fail 0.0e5\n' >"$work/wrong"
equal "of numbers that are all 0 both sums are 0" '0 0' "$(tools/quantify "$work/list" "$work/wrong" | sed -n '1,2s/.* //p' | xargs)"
