#!/usr/bin/env bash
# effects: its tables and rules on examples by hand, and random models by brute force over `replay`.
. "$(dirname "$0")/points.bash"
usage effects

model=tests/models/howto/common_cause.alt
equal "the two tables of one observer" \
'observer  cut sets  of 1  of 2
lost      2         1     1

event         lost
shock.strike  1 (1)
a.fail        2 (1)
b.fail        2 (1)' "$(tools/effects $model 2>&1)"
equal "as a table with commas" 'event,lost least events,lost cut sets
shock.strike,1,1' "$(tools/effects $model lost --csv | head -n 2)"
equal "a rule that is broken names the cut set" 'single lost: {shock.strike} status 1' "$(tools/effects $model --no-single lost 2>&1) status $?"
printf 'path,zone\na,hall\nb.fail,hall\nb,yard\n' >"$work/zones"
equal "two events of one zone are named, and a longer path counts" 'together lost in hall: {a.fail, b.fail} status 1' \
  "$(tools/effects $model --apart lost "$work/zones" 2>&1) status $?"
grep -v b.fail "$work/zones" >"$work/apart"
equal "a rule that is kept ends with 0" 'effects: no rule is broken status 0' "$(tools/effects $model --apart lost "$work/apart" 2>&1) status $?"
echo 'nosuch,hall' >"$work/wrong"
equal "a zone of what is not in the model is refused" 4 "$(tools/effects $model --apart lost "$work/wrong" >"$work/out" 2>&1; echo $?)"
equal "an observer that is not there is refused with its name" "effects: $model: nosuch: script: no observer (status 11) status 3" \
  "$(tools/effects $model nosuch 2>&1) status $?"
equal "the tables of random models are those of brute force" '50 models' "$(python3 tools/tests/effects.py 50 2>&1)"
printf 'path,zone\r\na,цех\r\nb,цех \r\n' >"$work/zones"
equal "names of zones are as they came" 'together lost in цех: {a.fail, b.fail}' "$(tools/effects $model --apart lost "$work/zones" 2>&1)"
printf 'a,\340\205\nb,\340\240\n' >"$work/zones"
equal "two zones whose names differ in a byte that is no ASCII are two" 0 "$(tools/effects $model --apart lost "$work/zones" >/dev/null 2>&1; echo $?)"
