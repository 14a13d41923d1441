#!/usr/bin/env bash
# join: the library of parts put together, places mapped back, and what is refused.
. "$(dirname "$0")/points.bash"
usage join

parts=(examples/parts/{pump,valve,diesel,changeover,battery,two_out_of_three}.alt)
tools/join "${parts[@]}" examples/parts/plant.alt --out "$work/whole.alt"
equal "the parts and a plant are one model" 'ok units 11 variables 35 events 16 observers 2' "$("$ALTARICA" check "$work/whole.alt")"
equal "the plant is dry by these" '{mains.fail, diesel.fail_to_start}
{mains.fail, diesel.fail_to_run}
{mains.fail, changeover.stick}
{changeover.burn}
{s1.show_high, s2.show_high}
{s1.show_high, s3.show_high}
{s2.show_high, s3.show_high}
{voter.act}
{valve.stick_shut}
{pump.fail_to_start}
{pump.fail_to_run}
count 11' "$("$ALTARICA" cuts "$work/whole.alt" --observer dry)"
for part in "${parts[@]}"; do
  name=$(sed -n 's/^class \([A-Za-z]*\)$/\1/p' "$part")
  { cat "$part"; printf 'block Alone\n  %s part;\nend\n' "$name"; } >"$work/alone.alt"
  equal "the part $name is a model by itself" ok "$("$ALTARICA" check "$work/alone.alt" | cut -d' ' -f1)"
done
sed 's/pump.power := changeover.power/pump.powr := changeover.power/' "$work/whole.alt" >"$work/slip.alt"
line=$(grep -n 'pump.power := ' examples/parts/plant.alt | cut -d: -f1)
equal "a place is that of the file" "examples/parts/plant.alt:$line:5: rule L10" \
  "$(tools/why check "$work/slip.alt" | tools/join --places "$work/slip.alt" | sed -n '1s/L10:.*/L10/p')"
equal "the program's own line too" "rule: L10 at examples/parts/plant.alt:$line:5" "$("$ALTARICA" check "$work/slip.alt" | tools/join --places "$work/slip.alt")"
printf 'class A\n  Boolean s (init = true);\n' >"$work/open.alt"
printf 'class Pump\nend' >"$work/pump.alt"
for words in "$work/open.alt ${parts[0]}" "${parts[0]} ${parts[0]}" "${parts[0]} $work/pump.alt" "$work/none.alt"; do
  equal "these are refused: $(basename -a $words | xargs)" 4 "$(tools/join $words >"$work/out" 2>&1; echo $?)"
done
equal "a name that two texts have is said with both places" "join: $work/pump.alt:1:7: \`Pump\` is declared at examples/parts/pump.alt:3:7 too" \
  "$(tools/join "${parts[0]}" "$work/pump.alt" 2>&1 >"$work/out")"
equal "a text that join has not made has no places" 4 "$(tools/join --places examples/pumps.alt </dev/null >"$work/out" 2>&1; echo $?)"
equal "a file that is joined is not written over" 2 "$(tools/join "$work/pump.alt" --out "$work/pump.alt" >"$work/out" 2>&1; echo $?)"

# A line of a text itself is no remark of join.
{ echo '// a pump'; echo '// from elsewhere (1 lines)'; sed 's/pump.power := changeover.power/pump.powr := changeover.power/' examples/parts/plant.alt; } >"$work/plant.alt"
tools/join "${parts[@]}" "$work/plant.alt" --out "$work/own.alt"
equal "a remark of a text leads no place astray" "$work/plant.alt:$((line + 2)):5" \
  "$(tools/why check "$work/own.alt" | tools/join --places "$work/own.alt" | sed -n '1s/: rule.*//p')"
sed '3d' "$work/own.alt" >"$work/changed.alt"
equal "a joined text that was changed has no places" 4 "$(tools/join --places "$work/changed.alt" </dev/null >"$work/out" 2>&1; echo $?)"
: >"$work/changed.alt"
equal "nor has an empty one" 4 "$(tools/join --places "$work/changed.alt" </dev/null >"$work/out" 2>&1; echo $?)"
ln "$work/pump.alt" "$work/linked.alt"
equal "nor is a file written over by another name of it" 2 "$(tools/join "$work/pump.alt" --out "$work/linked.alt" >"$work/out" 2>&1; echo $?)"
