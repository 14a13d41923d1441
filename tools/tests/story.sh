#!/usr/bin/env bash
# story: by hand on an example, and what it refuses.
. "$(dirname "$0")/points.bash"
usage story

printf '{valve.fail}\n// a remark\n{main_pump.fail, standby_pump.fail}\n{main_pump.start}\ncount 3\n' >"$work/list"
equal "a cut set of one event, and why" '{valve.fail}

At the start dry = false.
1. valve.fail
    water: true -> false
    valve.works: true -> false
    main_pump.water_in: true -> false
    main_pump.water_out: true -> false
    standby_pump.water_in: true -> false
    observer dry: false -> true

At the end dry = true. A star is on what has changed:
  water = false*: line 33, from main_pump.water_out = false*, standby_pump.water_out = false
  main_pump.water_out = false*: line 21, from main_pump.works = true, main_pump.runs = true, main_pump.water_in = false*
  main_pump.water_in = false*: line 31, from valve.works = false*' "$(tools/story examples/pumps.alt "$work/list" 1 --observer dry 2>&1)"
equal "lines are counted as checkcuts counts them" '1. main_pump.fail 2. standby_pump.fail' \
  "$(tools/story examples/pumps.alt - 3 --observer dry <"$work/list" | grep '^[0-9]' | xargs)"
equal "a line without a cut set, an event that cannot be fired, no such observer or line" '4 4 4 4 2' \
  "$(for words in '2 --observer dry' '4 --observer dry' '1 --observer nosuch' '99 --observer dry' '0 --observer dry'; do
    tools/story examples/pumps.alt "$work/list" $words >"$work/out" 2>&1; echo $?; done | xargs)"
for model in brake bus hydraulic pumps ring; do
  read -ra asked <<<"$(words_of "$model")"
  "$ALTARICA" cuts "examples/$model.alt" "${asked[@]}" >"$work/$model"
  holds "the first cut set of $model ends with its observer true" grep -q "^At the end ${asked[1]} = true" \
    <(tools/story "examples/$model.alt" "$work/$model" 1 --observer "${asked[1]}")
done
