#!/usr/bin/env bash
# The script `altarica`: what it answers at once, what it says before a long build, which program it takes, and that it
# costs next to nothing over the program. It is tried in small copies, in which `rt` is a stand-in that takes a note of
# each call, and once over the real crates.
# shellcheck disable=SC2034,SC2010
set -u
top=$PWD
lab=$(mktemp -d "${TMPDIR:-/tmp}/altarica-lab.XXXXXX")
trap 'rm -rf "$lab"' EXIT
usage='usage: altarica COMMAND FILES [--main B] [--observer O] [--value V] [--nodes N] [--drop EVENTS]'

# point WHAT CONDITION..: the condition is a command.
point() {
  local what=$1
  shift
  if "$@" >/dev/null 2>&1; then echo "passed: $what"; else echo "failed: $what ($(tr '\n' ' ' <"$lab/got" | cut -c1-300))"; fi
}

# Runs the script in the copy; its output goes to `out`, `err` and `got`, its status to `status`.
run() {
  local began=$EPOCHREALTIME
  (cd "$copy" && PATH=$lab/bin:$PATH timeout "${within:-60}" ./altarica "$@") >"$lab/out" 2>"$lab/err" <"${input:-/dev/null}"
  status=$?
  took=$(awk -v a="$began" -v b="$EPOCHREALTIME" 'BEGIN { printf "%d", (b - a) * 1000 }')
  { echo "status $status, $took ms:"; cat "$lab/out" "$lab/err"; } >"$lab/got"
}
wrote() { [ "$(cat "$lab/out")" = "$1" ]; }
said() { grep -qi -- "$1" "$lab/err"; }
calls() { [ "$(grep -c . "$lab/calls" 2>/dev/null)" -eq "$1" ]; }
both() { local it; for it; do eval "$it" || return 1; done; }

# A copy of the script with two small crates.
new_copy() {
  copy=$lab/copy$((++copies))
  mkdir -p "$copy"/crates/{low,altarica_main}/{src,specs,proofs} "$copy/tools"
  cp "$top/altarica" "$copy/"
  ln -s "$top/docs" "$top/VERSION" "$copy/"
  printf '# crates\nlow:\naltarica_main: low\n' >"$copy/crates.txt"
  for crate in low altarica_main; do
    for folder in src specs proofs; do echo "$crate $folder" >"$copy/crates/$crate/$folder/text"; done
  done
  find "$copy/crates" -type f -exec touch -d '1 hour ago' {} +
  cp "$top/tests/models/refusals/plant.alt" "$top/tests/models/refusals/twice.script" "$copy/"
  printf '#!/bin/sh\necho "$ALTARICA" "$@"\n' >"$copy/tools/why"
  chmod +x "$copy/tools/why"
  cp "$copy/tools/why" "$lab/why"
  [ ! -e "$top/tools/explain" ] || ln -s "$top/tools/explain" "$copy/tools/explain"
  : >"$lab/calls"
}
copies=0

# The stand-in for rt: notes the call; proves nothing or, where the file `works` is there, as the kit does. Another process,
# which is none of those that it starts, has the words of its program where the file `evil` is there.
mkdir -p "$lab/bin"
cp "$(type -P cp)" "$lab/cp"
cat >"$lab/bin/rt" <<END
#!/usr/bin/env bash
[ "\$1" != version ] || { echo stand-in; exit; }
echo "\$*" >>"$lab/calls"
[ -e "$lab/works" ] || exit 1
case \$1 in
  lib) echo proved ;;
  run) mkdir -p out; "$lab/cp" "\$(cat "$lab/builds" 2>/dev/null || echo "$ALTARICA")" out/altarica_main; echo "rt: running altarica_main" ;;
  try)
    shift 2
    folder=\$(mktemp -d "\${TMPDIR:-$lab}/try.XXXXXX")
    [ ! -e "$lab/evil" ] || (setsid "$lab/evil" "\$@" >/dev/null 2>&1 &)
    [ ! -e "$lab/slow" ] || sleep 2.5
    "$lab/cp" "$ALTARICA" "\$folder/program"
    "\$folder/program" "\$@"
    rm -rf "\$folder"
    echo "run=ended status=2 runners=1 proved=no" >&2
    ;;
esac
END
chmod +x "$lab/bin/rt"

# At once, with no program and no build.
new_copy
run --help
point "--help answers at once, with status 0 and no build" both '[ $status -eq 0 ]' '[ $took -lt 2000 ]' 'calls 0'
for word in check flat replay explain fragment equations cuts modules checkcuts make --main --observer --value --drop --nodes --max-order --unproved --why --open --explain; do
  grep -q -- "$word" "$lab/out" || echo "failed: --help names $word"
done
point "--help has the statuses" grep -q "Exit status" "$lab/out"
for page in README.md docs/use/{LANGUAGE,HOWTO,CUTS,TEXTS,REFUSALS}.md; do
  point "--help names $page, which is there" both 'grep -qw "$page" "$lab/out"' '[ -f "$top/$page" ]'
done
point "--help fits into 120 columns" test -z "$(grep -E '.{121}' "$lab/out")"
for word in --help --version; do
  (cd "$copy" && ./altarica $word >/dev/full 2>"$lab/got")
  status=$?
  point "$word where standard output takes nothing: status 8" test "$status" -eq 8
done
run
"$ALTARICA" >"$lab/program"
point "no words: the program's line and status, and the help on standard error" both '[ $status -eq 1 ]' 'cmp "$lab/out" "$lab/program"' 'said "Exit status"' 'calls 0'
run --version
point "--version has the number of VERSION and the commit" grep -q "^altarica $(cat "$top/VERSION"), commit " "$lab/out"
point "--version has the sum of the sources, and says which program is there" both 'grep -Eq "[0-9a-f]{64}" "$lab/out"' 'grep -q "^proved program: none" "$lab/out"' '[ $status -eq 0 ]' 'calls 0'

# Words that are no command are refused before a build, and only these. Each line is a set of words.
while IFS= read -r words; do
  eval "set -- $words"
  wanted=$(cd "$copy" && "$ALTARICA" "$@" </dev/null | head -n 1)
  : >"$lab/calls"
  run "$@"
  if [ "$wanted" = "$usage" ]; then
    point "no command: $words" both '[ $status -eq 1 ]' 'wrote "$usage"' 'said "are no command\|max-order"' '[ "$(grep -c . "$lab/err")" -eq 1 ]' 'calls 0'
  else
    point "a command: $words" both '[ $status -eq 12 ]' 'wrote ""' 'calls 1'
  fi
done <<'END'
chek plant.alt
check
check plant.alt plant.alt
check plant.alt --observer lost
check plant.alt --main Plant
check --main=Plant plant.alt
check --main Plant --main Plant plant.alt
check plant.alt --main
check -x plant.alt
check --colour plant.alt
check -- plant.alt
cuts plant.alt
cuts plant.alt --observer lost
cuts --observer lost plant.alt
cuts plant.alt --observer=lost --nodes 0
cuts plant.alt --observer=lost --nodes 16777216
cuts plant.alt --observer=lost --nodes 16777217
cuts plant.alt --observer=lost --nodes=007
cuts plant.alt --observer lost --value -3
cuts plant.alt --observer lost --value=-3
cuts plant.alt --observer lost --drop a.fail,b.fail
cuts plant.alt --observer --drop
cuts plant.alt --observer lost --max-order 2
cuts plant.alt --observer=lost --max-order=1000
cuts --max-order 1 --observer lost -- plant.alt
cuts plant.alt --observer lost --max-order 0
cuts plant.alt --observer lost --max-order=1001
cuts plant.alt --observer lost --max-order 02
cuts plant.alt --observer lost --max-order 2 --max-order 2
cuts plant.alt --observer lost --max-order
cuts plant.alt --max-order 2
checkcuts plant.alt twice.script --observer lost --max-order 1
modules plant.alt --observer lost --max-order 2
equations plant.alt --observer lost --max-order=2
replay plant.alt
replay plant.alt twice.script
replay plant.alt twice.script --drop a.fail
explain plant.alt twice.script --observer lost
explain plant.alt twice.script --value true
fragment plant.alt --drop a.fail
fragment plant.alt --observer lost
equations plant.alt --observer lost --nodes 5
checkcuts plant.alt --observer lost
modules plant.alt --observer lost
make 6
make 201
make 06
make six
make 6 --main B
make
END
run check nowhere.alt
point "a model that is not there is refused before a build" both '[ $status -eq 7 ]' 'wrote "read: model"' 'said nowhere.alt'
run replay plant.alt nowhere.script
point "a script that is not there is refused before a build" both '[ $status -eq 7 ]' 'wrote "read: script"'

run check $'model\xff'
point "a word that is no UTF-8 is refused with a line" both '[ $status -eq 7 ] || [ $status -eq 12 ]' '[ "$(grep -c . "$lab/err")" -eq 1 ]'
cp "$copy/plant.alt" "$copy/"$'plant\xff'
run check $'plant\xff'
point "also where it names a file" both '[ $status -eq 12 ]' 'said "no UTF-8"' 'calls 0'
(cd "$copy" && PATH=$lab/empty /bin/bash ./altarica check plant.alt) >"$lab/out" 2>"$lab/err" </dev/null
status=$?
cp "$lab/err" "$lab/got"
point "without the commands of the system it ends at once" both '[ $status -eq 12 ]' 'said "are not on the path"'
(cd "$copy" && /bin/bash -s -- check plant.alt) <"$top/altarica" >"$lab/out" 2>"$lab/err"
status=$?
cp "$lab/err" "$lab/got"
point "so does a script that is read from a pipe" both '[ $status -eq 12 ]' 'said "not beside this script"'

# Before a long build.
: >"$lab/calls"
run check plant.alt
point "before a build: how long it takes" said 'takes .* hours'
point "before a build: --unproved answers in minutes" said 'unproved .*minutes'
point "before a build: what is proved stays" said 'stopped at any time: what is proved .*stays'
point "a crate that is not proved: status 12, and the log is named" both '[ $status -eq 12 ]' 'said "crate low was not proved"' 'said "the log is"'
rm -f "${TMPDIR:-/tmp}"/altarica-log.*

# A build, and the calls behind it.
: >"$lab/works"
: >"$lab/calls"
run check plant.alt
answer=$(cd "$copy" && "$ALTARICA" check plant.alt)
point "a build: each crate, then the program, then the answer" both '[ $status -eq 0 ]' 'wrote "$answer"' 'calls 2' 'said "built in"'
: >"$lab/calls"
run check plant.alt
point "the next call builds nothing and says nothing" both '[ $status -eq 0 ]' 'wrote "$answer"' 'calls 0' '[ ! -s "$lab/err" ]'
run cuts plant.alt --observer nothing
point "the program's status and line are the script's" both '[ $status -eq 11 ]' 'wrote "script: no observer"'
ln -s "$copy/altarica" "$lab/bin/altarica"
mkdir "$lab/elsewhere"
cp "$copy/plant.alt" "$lab/elsewhere/here.alt"
(cd "$lab/elsewhere" && PATH=$lab/bin:$PATH altarica check here.alt) >"$lab/out" 2>"$lab/err" </dev/null
cp "$lab/out" "$lab/got"
point "by a link on the path, from another folder" wrote "$answer"
rm "$lab/bin/altarica"
run --version
point "--version names the proved program" grep -q '^proved program: .*/out/altarica$' "$lab/out"
touch "$copy/crates/low/src/text"
run check plant.alt
point "a file with a new time and the old content: no build" both 'wrote "$answer"' 'calls 0'
rm -f "$lab/works"
sleep 2.1
run check plant.alt
touch -r "$copy/crates/low/proofs/text" "$lab/time"
echo low PROOFS >"$copy/crates/low/proofs/text"
touch -r "$lab/time" "$copy/crates/low/proofs/text"
run check plant.alt
point "a file of the same size and time with a new content: a build" both '[ $status -eq 12 ]' 'calls 1'
: >"$lab/calls"
echo changed >"$copy/crates/low/proofs/text"
run check plant.alt
point "a file with a new content: a build" both '[ $status -eq 12 ]' 'calls 1' 'said "building its 2 crates"'
rm -f "${TMPDIR:-/tmp}"/altarica-log.*

# What is kept is the program of its note, and a call that is stopped leaves no other one.
new_copy
: >"$lab/works"
run check plant.alt
: >"$lab/calls"
printf '#!/bin/sh\necho another\n' >"$lab/other"
chmod +x "$lab/other"
"$lab/cp" "$lab/other" "$copy/out/altarica"
run check plant.alt
point "a program that is not the one of its note is not run" both '! wrote another' 'wrote "$answer"'
echo "$lab/other" >"$lab/builds"
cp "$copy/crates/low/src/text" "$lab/text"
echo changed >"$copy/crates/low/src/text"
# The script is stopped at once behind the move of the program to its place.
printf '#!/bin/sh\n%s "$@"\ncase "$*" in */out/altarica) kill -9 $PPID ;; esac\n' "$(type -P mv)" >"$lab/bin/mv"
chmod +x "$lab/bin/mv"
run check plant.alt
rm -f "$lab/bin/mv" "$lab/works" "$lab/builds"
"$lab/cp" "$lab/text" "$copy/crates/low/src/text"
rm -f "$copy/crates/altarica_main/out/altarica_main"
run check plant.alt
point "stopped between the program and its note, it calls no program proved that is not" both '! wrote another' '[ $status -eq 12 ]'
rm -f "${TMPDIR:-/tmp}"/altarica-log.*

# The program that the gate has built.
new_copy
mkdir -p "$copy/crates/altarica_main/out" && cp "$ALTARICA" "$copy/crates/altarica_main/out/altarica_main"
find "$copy/crates" -type d -name out -prune -o -type f -exec touch -d '1 hour ago' {} +
sleep 0.02
touch "$copy/crates/altarica_main/out/altarica_main"
run check plant.alt
point "the program of the gate is taken where no file has changed" both '[ $status -eq 0 ]' 'wrote "$answer"' 'calls 0'

# --explain
for key in L1 L2 L3 L4 L5 L6 L7 L8 L9 L10 L11 L12 L13 L14 S1 S2 S3 S4 S5 S6 S7 S8 syntax nesting size nodes script read usage write memory conflict; do
  run --explain $key
  point "--explain $key prints one section" both '[ $status -eq 0 ]' '[ "$(grep -c "^## " "$lab/out")" -eq 1 ]' 'grep -qi "^## $key:" "$lab/out"'
done
while IFS='|' read -r line heading; do
  run --explain $line
  point "--explain $line" both '[ $status -eq 0 ]' '[ "$(grep -c "^## " "$lab/out")" -eq 1 ]' 'grep -q "^## $heading" "$lab/out"'
done <<'END'
rule: L10 at 8:21|L10:
outside: S6 at valve.m|S6:
size: ways 256|size:
size: nesting 128|nesting:
syntax: 3:3|syntax:
nodes: 1|nodes:
script: line 2 is no command|script:
fault: a.fail: not enabled|fault: not enabled
fault: e: two values for s|fault: two values for a variable
fault: up: n outside its domain|fault: a step leaves its domain
fault: e: flow x has two values|fault: flow has two values
fault: e: flow x is outside its domain|fault: flow is outside its domain
fault: start: assignment 1 at 1:46 does not hold|fault: assignment does not hold
fault: back: no step|fault: back, no step
fault: {a, b}|conflict:
END
while IFS='|' read -r line heading; do
  run --explain $line
  point "--explain $line: the section on conflicts, then that on the fault" both '[ $status -eq 0 ]' '[ "$(grep "^## " "$lab/out" | sed "s/^## //; s/:.*//" | paste -sd,)" = conflict,fault ]' 'grep -q "^## $heading" "$lab/out"'
done <<'END'
fault: {trip}: flow x has two values|fault: flow has two values
fault: {a.fail, b.fail}: flow x is outside its domain|fault: flow is outside its domain
fault: {}: assignment 1 at 14:5 does not hold|fault: assignment does not hold
END
(cd "$copy" && ./altarica --explain syntax 2>"$lab/err" | head -n 1) >"$lab/got"
point "--explain into a reader that ends early: no further words" both '[ ! -s "$lab/err" ]' 'grep -q "^## syntax" "$lab/got"'
while IFS='|' read -r words headings; do
  run --explain "$words"
  point "--explain $words: $headings" both '[ $status -eq 0 ]' '[ "$(grep "^## " "$lab/out" | sed "s/^## //" | paste -sd";")" = "$headings" ]'
done <<'END'
flow x has two values|fault: flow has two values
assignment 9 at 24:40 does not hold|fault: assignment does not hold
fault: {..}: flow x has two values|conflict: `fault: {a, b}: ..` in place of cuts;fault: flow has two values
count 0|unexpected: cuts that are not those you expected
{}|unexpected: cuts that are not those you expected
unexpected|unexpected: cuts that are not those you expected
max-order|Small cuts: single and double failures
--max-order|Small cuts: single and double failures
count 2 up to order 1|Small cuts: single and double failures
no up to order 3|Small cuts: single and double failures
line 4 above|Small cuts: single and double failures
lint|unexpected: cuts that are not those you expected
tie|Networks and ties
flow loop|Networks and ties
closed|A closed circuit
circuit|A closed circuit
leak|A failure that acts on its neighbours
keeps|A loop that keeps itself running
levels|Levels in a loop
standby|A spare that starts on demand;A pump that fails to start or while it runs
spare|A spare that starts on demand
demand|A spare that starts on demand
common cause|Common cause
repair|Repairs
vote|Voting
changeover|A changeover switch
monitor|A unit that gives no value or a false one
short|A failure that spreads
control loop|A control loop
probability|Probabilities;What this is not for
failure rate|Probabilities;What this is not for
fmea|What each failure does: an FMEA
sequence|What this is not for
phase|What this is not for
test interval|What this is not for
library|A library of parts
workbench|Start it;Play a cut set
out of service|A part that is out of service
observer|script: a script, a list or a word names nothing
no observer|script: a script, a list or a word names nothing
S4 at shock.absent|S4: an action touches something besides its own state
not|fault: assignment does not hold
owner|L10: nothing with this name;Paths
embeds|Units
END
run --explain 'syntax =>'
point "--explain syntax =>: the rows with this sign" both '[ $status -eq 0 ]' '[ "$(grep -c "^| .=>. |" "$lab/out")" -eq 2 ]' '[ "$(grep -c "^|" "$lab/out")" -eq 4 ]' 'grep -q "altarica --explain syntax$" "$lab/out"'
run --explain nonsense
point "--explain of nothing: the list of sections, status 1" both '[ $status -eq 1 ]' 'said "no page has a section on nonsense"' 'said "L14:"' 'said "^Common cause$"' 'said "^A closed circuit$"'
for first in --unproved --why; do
  run $first --explain L10
  point "$first --explain L10 prints the section" both '[ $status -eq 0 ]' 'grep -q "^## L10:" "$lab/out"' '[ ! -s "$lab/err" ]'
done

# --why, by itself and with ALTARICA.
by_env() {
  (cd "$copy" && PATH=$lab/bin:$PATH timeout 60 env "$@") >"$lab/out" 2>"$lab/err" </dev/null
  status=$?
  { echo "status $status:"; cat "$lab/out" "$lab/err"; } >"$lab/got"
}
by_env ALTARICA="$lab/bin/rt" ./altarica --why check plant.alt
point "--why with ALTARICA takes that program" both '[ $status -eq 0 ]' 'wrote "$lab/bin/rt check plant.alt"'
rm "$copy/tools/why"
ln -s "$top/tools/why" "$copy/tools/why"
by_env ALTARICA="$lab/nowhere" ./altarica --why check plant.alt
point "--why where ALTARICA names no program: status 4 and a line" both '[ $status -eq 4 ]' 'said "is no program"'
rm "$copy/tools/why"
"$lab/cp" "$lab/why" "$copy/tools/why"
by_env -u ALTARICA ./altarica --why check plant.alt
point "--why runs tools/why with the proved program" both '[ $status -eq 0 ]' 'wrote "$copy/out/altarica check plant.alt"'

# --unproved: the program is compiled once and kept.
if [ "$(head -c 4 "$ALTARICA" | tail -c 3)" = ELF ] && [ -d "/proc/$$" ]; then
  new_copy
  : >"$lab/works"
  : >"$lab/slow"
  ALTARICA_TELL=1 run --unproved check plant.alt
  rm -f "$lab/slow"
  point "--unproved says while it compiles that it does" both '[ $status -eq 0 ]' 'said "still compiling, for 0:0"'
  new_copy
  # Stopped while it compiles: nothing goes on, and nothing is left.
  : >"$lab/works"
  : >"$lab/slow"
  # A signal that is ignored from outside, as HUP under nohup, stops no script.
  ignored=$(sed -n 's/^SigIgn:[[:blank:]]*//p' "/proc/$$/status")
  for signal in TERM:143 HUP:129 PIPE:141; do
    [ $(((16#${ignored:-0} >> (${signal#*:} - 129)) & 1)) -eq 0 ] || continue
    mkdir -p "$lab/room"
    (cd "$copy" && TMPDIR=$lab/room PATH=$lab/bin:$PATH exec ./altarica --unproved check plant.alt) >"$lab/out" 2>"$lab/err" </dev/null &
    pid=$!
    for _ in $(seq 100); do ls -d "$lab"/room/altarica-try.*/try.* >/dev/null 2>&1 && break; sleep 0.1; done
    kill -"${signal%:*}" "$pid"
    wait "$pid"
    status=$?
    { ls -A "$lab/room"; ps -e -o args | grep -F -- "$lab/bin/rt try" | grep -v grep; } >"$lab/left"
    { echo "status $status"; cat "$lab/left" "$lab/err"; } >"$lab/got" 2>&1
    point "stopped by ${signal%:*} while it compiles, it ends with ${signal#*:} and leaves nothing" \
      both "[ $status -eq ${signal#*:} ]" '[ ! -s "$lab/left" ]' '[ -s "$lab/err" ]'
  done
  rm -f "$lab/slow"
  new_copy
  # A process of anyone that has the words of the kit's program.
  mkdir "$lab/evil_home"
  printf '#!/bin/sh\nsleep 4\n' >"$lab/evil_home/program"
  printf '#!/bin/sh\nexec %s/evil_home/program "$@"\n' "$lab" >"$lab/evil"
  chmod +x "$lab/evil" "$lab/evil_home/program"
  : >"$lab/works"
  : >"$lab/slow"
  run --unproved check plant.alt
  rm -rf "$lab/evil" "$lab/slow"
  point "--unproved keeps the program of its own call, whatever other processes are named" both '[ $status -eq 0 ]' 'wrote "$answer"' 'cmp "$copy/out/unproved" "$ALTARICA"'
  new_copy
  # A disk that is full: half a file is written.
  printf '#!/bin/sh\nfor last; do :; done\ncase $last in */out/unproved.*) head -c 1000 "$1" >"$last"; echo "cp: no space left" >&2; exit 1 ;; esac\nexec %s/cp "$@"\n' "$lab" >"$lab/bin/cp"
  chmod +x "$lab/bin/cp"
  within=20 run --unproved check plant.alt
  rm "$lab/bin/cp"
  point "--unproved where out/ is full: status 12, a line, and no half file" both '[ $status -eq 12 ]' 'said "could not be .*kept"' '[ -z "$(ls "$copy/out" | grep "^unproved.*[0-9]$")" ]' '[ ! -e "$copy/out/unproved" ]'
  new_copy
  : >"$lab/works"
  run --unproved check plant.alt
  point "--unproved says that it compiles, how long, and that nothing is proved" both 'said "compiling .*minutes"' 'said "a quarter of an hour on a busy one"' '! said "still compiling"' 'said "nothing of this run is proved"'
  point "--unproved gives the program's answer" both '[ $status -eq 0 ]' 'wrote "$answer"' 'calls 1'
  : >"$lab/calls"
  point "--unproved leaves nothing behind but what it keeps" test -z "$(ls -d "${TMPDIR:-/tmp}"/altarica-try.* 2>/dev/null; ls "$copy/out" | grep -v '^unproved$\|^unproved\.\(loader\|lock\|made_of\)$\|^code.files$')"
  if [ "$(id -u)" -eq 0 ] && command -v setpriv >/dev/null; then
    chmod a+rx "$lab" "$lab/bin"
    (cd "$copy" && PATH=$lab/bin:$PATH setpriv --reuid=65534 --regid=65534 --clear-groups ./altarica --unproved check plant.alt) >"$lab/out" 2>"$lab/err" </dev/null
    status=$?
    cat "$lab/out" "$lab/err" >"$lab/got"
    point "another user runs what is kept" both '[ $status -eq 0 ]' 'wrote "$answer"' 'calls 0'
    mv "$copy/out/unproved" "$copy/out/away"
    (cd "$copy" && PATH=$lab/bin:$PATH setpriv --reuid=65534 --regid=65534 --clear-groups ./altarica --unproved check plant.alt) >"$lab/out" 2>"$lab/err" </dev/null
    status=$?
    cat "$lab/out" "$lab/err" >"$lab/got"
    mv "$copy/out/away" "$copy/out/unproved"
    point "where nothing can be kept, nothing is compiled: status 12 and a line" both '[ $status -eq 12 ]' 'said "nothing can be kept"' 'calls 0' '[ "$(grep -c . "$lab/err")" -eq 1 ]'
  fi
  run --unproved check plant.alt
  point "--unproved keeps what it compiled" both '[ $status -eq 0 ]' 'wrote "$answer"' 'calls 0' '! said compiling'
  echo more >"$copy/crates/low/proofs/text"
  run --unproved check plant.alt
  point "--unproved: another proof compiles nothing" both 'wrote "$answer"' 'calls 0'
  cp plant.alt "$copy/lost" 2>/dev/null || cp "$copy/plant.alt" "$copy/lost"
  cp "$copy/plant.alt" "$copy/6"
  run --unproved cuts plant.alt --observer lost
  point "--unproved: a file with the observer's name changes no word" both '[ $status -eq 0 ]' 'wrote "$(cd "$copy" && "$ALTARICA" cuts plant.alt --observer lost)"'
  run --unproved make 6
  point "--unproved: a file 6 does not break make 6" both '[ $status -eq 0 ]' 'grep -q "^make 6$" "$lab/out"'
  input=$copy/plant.alt run --unproved check /dev/stdin
  point "--unproved takes /dev/stdin" both '[ $status -eq 0 ]' 'wrote "$answer"'
  run --unproved check <(cat "$copy/plant.alt")
  point "--unproved takes <(..)" both '[ $status -eq 0 ]' 'wrote "$answer"'
  run --unproved cuts plant.alt --observer nothing
  point "--unproved has the program's status" both '[ $status -eq 11 ]' 'wrote "script: no observer"'
  run --unproved chek plant.alt
  point "--unproved: words that are no command" both '[ $status -eq 1 ]' 'wrote "$usage"'
  : >"$lab/calls"
  run --unproved --why check plant.alt
  point "--unproved --why runs tools/why" both '[ $status -eq 0 ]' 'grep -q "check plant.alt$" "$lab/out"' 'calls 0'
  by_env -u ALTARICA ./altarica --why check plant.alt
  point "--why where no proved program is built takes the unproved one, and says so in one line" both '[ $status -eq 0 ]' 'said "takes the program without its proofs, so nothing of this run is proved"' 'calls 0' '[ "$(grep -c . "$lab/err")" -eq 1 ]'
  helped=$lab/helped
  mkdir "$helped"
  cp -r "$top/tools" "$helped/tools"
  cp -r "$copy/out" "$helped/out"
  cp "$copy/plant.alt" "$helped/"
  echo '{a.fail, b.fail}' >"$helped/list"
  for words in "lint plant.alt" "order plant.alt list" "why check plant.alt"; do
    (cd "$helped" && env -u ALTARICA tools/$words) >"$lab/out" 2>"$lab/err" </dev/null
    status=$?
    cat "$lab/out" "$lab/err" >"$lab/got"
    point "tools/${words%% *} takes the unproved program where no proved one is built, and says so" both '[ $status -lt 2 ]' 'said "nothing of this run is proved"' '! said "no program"'
  done
  mv "$helped/out" "$helped/away"
  (cd "$helped" && env -u ALTARICA PATH=/usr/bin:/bin tools/lint plant.alt) >"$lab/out" 2>"$lab/err" </dev/null
  status=$?
  cat "$lab/out" "$lab/err" >"$lab/got"
  point "a helper without any program says how one is had" both '[ $status -ne 0 ]' 'said "altarica --unproved"'
  echo more >"$copy/crates/low/src/text"
  run --unproved check plant.alt
  point "--unproved: another source is compiled" both '[ $status -eq 0 ]' 'wrote "$answer"' 'calls 1'
  rm -f "$lab/works"
  echo most >"$copy/crates/low/src/text"
  run --unproved check plant.alt
  point "--unproved where it cannot be compiled: status 12 and a line" both '[ $status -eq 12 ]' 'said "could not be compiled"'
fi

# The scripts of docs/use/IN_CI.md, without a program: the message of the shell alone.
for words in "no_single_failure spare.alt lost" "same_cuts spare.cuts spare.alt lost" "whole_list spare.cuts spare.alt lost"; do
  (cd tests/ci && set -- $words && ALTARICA=$lab/nowhere "./$1" "${@:2}" >"$lab/out" 2>"$lab/err" </dev/null)
  status=$?
  cat "$lab/out" "$lab/err" >"$lab/got"
  point "tests/ci/${words%% *} without a program: status 2, no empty line" both '[ $status -eq 2 ]' '[ ! -s "$lab/out" ]' '[ "$(grep -c . "$lab/err")" -eq 1 ]'
done

# The proved program by the real crates: what the script costs, and that the program needs the C library alone.
copy=$lab/real
mkdir -p "$copy/out"
cp altarica "$copy/"
for it in crates crates.txt docs tools examples; do ln -s "$top/$it" "$copy/$it"; done
cp "$ALTARICA" "$copy/out/altarica"
run --version
{
  sed -n 's/^sum of the sources and proofs: \(.*\)/\1  -/p' "$lab/out"
  sha256sum <"$copy/out/altarica"
  echo stand-in
  find "$copy/out/altarica" -printf '%s %T@ %C@ %i\n'
} >"$copy/out/altarica.made_of"
sleep 2
: >"$lab/calls"
run check examples/pumps.alt
point "the proved program answers through the script" both '[ $status -eq 0 ]' 'grep -q "^ok units" "$lab/out"' 'calls 0'
printf '#!/bin/sh\necho sum >>"%s/calls"\n' "$lab" >"$lab/bin/sha256sum"
chmod +x "$lab/bin/sha256sum"
run check examples/pumps.alt
point "where nothing has changed, no file is summed" both '[ $status -eq 0 ]' 'calls 0'
rm "$lab/bin/sha256sum"
# The least processor time of some runs, in ms; the time by the clock says more of what else the machine does.
least() {
  local best=999999 i it TIMEFORMAT='%U %S'
  for i in 1 2 3 4 5 6 7 8; do
    it=$({ time "$@" >/dev/null 2>&1; } 2>&1 | awk '{ printf "%d", ($1 + $2) * 1000 }')
    [ "$it" -ge "$best" ] || best=$it
  done
  echo "$best"
}
over=$(($(least "$copy/altarica" check examples/pumps.alt) - $(least "$copy/out/altarica" check examples/pumps.alt)))
echo "$over ms over the program's own time" >"$lab/got"
point "the script costs at most 0.1 s over the program" test "$over" -le 100
mkdir "$lab/alone"
cp "$ALTARICA" "$lab/alone/altarica"
cp "$top/examples/pumps.alt" "$lab/alone/"
(cd "$lab/alone" && env -i ./altarica check pumps.alt) >"$lab/got" 2>&1
point "the program runs by itself, without environment and kit" grep -q '^ok units' "$lab/got"
if grep -q __asan_init "$ALTARICA"; then
  echo "skipped: whether the program needs the C library alone (that is asked of a proved one: rt ci)"
elif command -v ldd >/dev/null; then
  ldd "$ALTARICA" >"$lab/got" 2>&1
  point "the program needs the C library alone" test -z "$(grep -vE 'linux-vdso|ld-linux|libc\.so|statically linked|not a dynamic' "$lab/got")"
fi
