#!/usr/bin/env bash
# step: a session of lines, with the answers that it should have.
. "$(dirname "$0")/points.bash"
usage step

session() { printf '%s\n' "$@" | tools/step examples/pumps.alt 2>&1; }
equal "events are listed, fired by number and by label, and taken back" '5 events can happen now; help says what can be typed
   1  valve.fail
   2  main_pump.fail
   3  main_pump.stop
   4  standby_pump.fail
   5  standby_pump.start
> 5
fire standby_pump.start
  standby_pump.runs = true
  standby_pump.water_out = true
> main_pump.fail
fire main_pump.fail
  main_pump.works = false
  main_pump.water_out = false
> back
back from main_pump.fail
  main_pump.works = true
  main_pump.water_out = true
> quit' "$(session 5 main_pump.fail back quit)"
equal "a list is searched by a word, also where it is no label" '> list stop
   3  main_pump.stop
> standby
   4  standby_pump.fail
   5  standby_pump.start' "$(session 'list stop' standby | tail -n 5)"
equal "what cannot be done is said, and the session goes on" '> back
there is no event to take back
> 99
the list has no number 99
> nosuch
nosuch: this names no event
> main_pump.start
fault: main_pump.start: not enabled
> show dry
  observer dry = false' "$(session back 99 nosuch main_pump.start 'show dry' | tail -n 10)"
equal "why says what explain says" "$(echo 'fire valve.fail' >"$work/s"; "$ALTARICA" explain examples/pumps.alt "$work/s" --observer dry)" \
  "$(session valve.fail 'why dry' | sed '1,/^> why/d')"
equal "the events are saved as a script, and a session begins behind one" 'end 2 > events fire valve.fail fire main_pump.fail' \
  "$(session valve.fail main_pump.fail "save $work/saved" >"$work/out"
    { "$ALTARICA" replay examples/pumps.alt "$work/saved" | tail -n 1; echo events | tools/step examples/pumps.alt "$work/saved" | tail -n 3; } | xargs)"
equal "a session that begins again" '> restart
at the start
> events
no event yet' "$(session valve.fail restart events | tail -n 4)"
equal "a fault is said, and its event is not kept" '> upper.lose_sensor
fault: upper.lose_sensor: flow setpoint has two values
> events
no event yet' "$(printf '%s\n' upper.lose_sensor events | tools/step examples/conflict.alt | tail -n 4)"
equal "a model and a script that are refused" '3 4 4' "$(for words in 'tests/mistakes/nosuch.alt' 'examples/pumps.alt examples/brake.alt' ; do tools/step $words </dev/null >"$work/out" 2>&1; echo $?; done | xargs) $(tools/step examples/pumps.alt "$work/none" </dev/null >"$work/out" 2>&1; echo $?)"
cp examples/pumps.alt "$work/model.alt"
ln -s model.alt "$work/link.alt"
said=$(printf '%s\n' "save $work/model.alt" "save $work/link.alt" 'save' "save $work/none/x" "save $work" back | tools/step "$work/model.alt" 2>&1; echo "status $?")
equal "the model is not written over, and the session goes on" 'same 2 1 status 0' \
  "$(cmp "$work/model.alt" examples/pumps.alt && echo same) $(grep -c 'so it is not written' <<<"$said") $(grep -c 'no event to take back' <<<"$said") $(tail -n 1 <<<"$said")"
