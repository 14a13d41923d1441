#!/usr/bin/env bash
# fmea: its forms, models of a few lines by hand, and random models by brute force over `replay`.
. "$(dirname "$0")/points.bash"
usage fmea

equal "a failure that cuts the supply off, and one that a spare covers" \
'failure            observers that change  flows that change
valve.fail         dry = true             water = false; main_pump.water_in = false; main_pump.water_out = false; standby_pump.water_in = false
main_pump.fail     dry = true             water = false; main_pump.water_out = false
standby_pump.fail  -                      -' \
  "$(tools/fmea examples/pumps.alt --drop main_pump.start,main_pump.stop,standby_pump.start,standby_pump.stop)"
equal "as a table with commas" 'failure,dry,flows that change
main_pump.stop,true,water = false; main_pump.water_out = false' "$(tools/fmea examples/pumps.alt --csv 2>/dev/null | grep -e '^failure' -e 'pump.stop')"
equal "events that cannot be fired at the start are named" 'fmea: 2 of the events cannot be fired at the start: main_pump.start, standby_pump.stop' \
  "$(tools/fmea examples/pumps.alt 2>&1 >"$work/out")"
equal "a failure that meets a fault has it in its row, and the others have theirs" \
'switch_lower_off -
upper.lose_sensor fault: upper.lose_sensor: flow setpoint has two values
lower.lose_sensor fault: lower.lose_sensor: flow setpoint has two values' \
  "$(tools/fmea examples/conflict.alt | sed '1d; s/  *[-?]  */ /')"
equal "a pair that does what neither of its events does" \
'failures                             observers that change  flows that change
switch_lower_off, upper.lose_sensor  low = true             setpoint = 0; upper.wanted = 0' "$(tools/fmea examples/conflict.alt --pairs)"
equal "a section for a page has a row for each failure" '1 6' \
  "$(tools/fmea examples/pumps.alt --html 2>/dev/null | grep -c '^<section id="fmea">') $(tools/fmea examples/pumps.alt --html 2>/dev/null | grep -c '^<tr>')"
equal "an observer or an event that is not there is refused" '4 4 3' \
  "$(for words in '--observer nosuch' '--drop nosuch' '--main nosuch'; do tools/fmea examples/pumps.alt $words >"$work/out" 2>&1; echo $?; done | xargs)"
for model in examples/*.alt; do
  name=$(basename "$model" .alt)
  holds "each event of $name that can be fired at the start has a row" test \
    "$(echo enabled >"$work/s"; "$ALTARICA" replay "$model" "$work/s" | sed -n '/^enabled/,$ s/^  //p')" = "$(tools/fmea "$model" --csv 2>/dev/null | sed '1d; s/,.*//')"
done
equal "the tables of random models are those of replay" '50 models, 1 events
12 models, 2 events' "$(python3 tools/tests/fmea.py 2>&1)"
