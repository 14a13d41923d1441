#!/usr/bin/env bash
# Hostile names of files: each helper reads a model and a list of such a name and writes to one, or ends with 4 and a line that
# says why: the program takes no words that are no UTF-8. No helper fails with a trace of Python, and none leaves half a file.
. "$(dirname "$0")/points.bash"

names=(
  "it's" 'a "quoted" one' "'\"'" '$(touch ran)' '`touch ran`' '; touch ran' $'new\nline' $'end\n' $'\e[31mred' $'tab\there'
  '<script>alert(1)' '-leading' '--main=B' 'модель' '模型' $'byte\xff' $'\x80\xfe' '%s%n' 'a=b' '*' '\\' 'name#1,2{3}'
  $'turned\xe2\x80\xaetext' $'c1\xc2\x9b31m'
)
cd "$work" || exit 1
# Pictures are drawn by a stand-in, which takes the texts that name files.
mkdir room bin
printf '#!/bin/sh\ncat >/dev/null; echo "<svg></svg>"\n' >bin/dot
chmod +x bin/dot
PATH=$work/bin:$PATH
cp "$top/examples/brake.alt" model
cp "$top/examples/brake.cuts" list
asked=(--observer too_weak)

# is_utf8 NAME
is_utf8() { printf '%s' "$1" | iconv -f UTF-8 -t UTF-8 >/dev/null 2>&1; }

# trial NAME: the helper ends with 0 or 1, or with 4 and a line where the name is no UTF-8; nothing else is there behind it.
wrong=''
trial() {
  local name=$1 tool=$2 status
  shift 2
  (cd room && "$top/tools/$tool" "$@") >out 2>err </dev/null
  status=$?
  if grep -q Traceback out err || [ "$status" -gt 1 ] && { [ "$status" -ne 4 ] || is_utf8 "$name" || ! grep -q 'no UTF-8' err; }; then
    wrong+="$tool $* ends with $status: $(tail -n 1 err); "
  fi
  LC_ALL=C grep -q $'[\x01-\x08\x0b-\x1f]\|\xc2[\x80-\x9f]\|\xe2\x80\xae' out err && wrong+="$tool $* writes control characters; "
  [ ! -e room/ran ] || wrong+="$tool $* runs a name; "
}

# written NAME FILE: what was written is whole, or is not there.
written() { [ ! -e "room/$1" ] || cmp -s "room/$1" "$2" || wrong+="half a file: $1; "; rm -f "room/$1"; }

"$top/tools/draw" units "$work/model" --dot >units.dot
"$top/tools/to_open_psa" cuts model "${asked[@]}" >cuts.xml
"$top/tools/from_altarica" "$work/model" --map map >/dev/null
"$top/tools/join" "$work/model" >joined
grep -m 1 -n '^{[^,]*}$' list | cut -d: -f2 >one
grep '^{' list | tr -d '{}' | tr ',' '\n' | sed 's/ //g; s/$/ 0.1/' | sort -u >numbers
sed 's/ .*/,zone/' numbers >zones
tr . - <list >result
sed -n '1{s/ .*//; s/^/fire /; p}' numbers >script
for name in "${names[@]}"; do
  cp model "room/$name"
  trial "$name" lint -- "$name"
  trial "$name" lint --json -- "$name"
  trial "$name" why check -- "$name"
  trial "$name" draw units --dot -- "$name"
  trial "$name" report "${asked[@]}" --stories 0 -- "$name"
  trial "$name" to_open_psa tree "${asked[@]}" -- "$name"
  trial "$name" order -- "$name" "$work/list"
  trial "$name" open --idle 0.005 -- "$name"
  trial "$name" fmea -- "$name"
  trial "$name" effects -- "$name" too_weak
  trial "$name" story --observer too_weak -- "$name" "$work/list" 3
  trial "$name" exchange -- "$name" "$work/list"
  trial "$name" compare_models --observer too_weak -- "$name" "$name"
  trial "$name" quantify --model="$name" --time 1 -- "$work/one" "$work/numbers"
  trial "$name" step -- "$name"
  trial "$name" join --out=joined -- "$name"
  [ ! -e room/joined ] || trial "$name" join --places=joined
  trial "$name" from_altarica --map=map -- "$name"
  [ ! -e room/map ] || trial "$name" from_altarica --place -- map 9:3
  rm -f room/joined room/map
  cp cuts.xml "room/$name"
  trial "$name" to_open_psa back -- "$name" "$work/result"
  cp result "room/$name"
  trial "$name" to_open_psa back -- "$work/cuts.xml" "$name"
  cp list "room/$name"
  trial "$name" compare -- "$name" "$work/list"
  trial "$name" line_as_script -- "$name" 3
  trial "$name" order -- "$work/model" "$name"
  trial "$name" exchange -- "$work/model" "$name"
  trial "$name" story --observer too_weak -- "$work/model" "$name" 3
  trial "$name" quantify -- "$name" "$work/numbers"
  trial "$name" from_altarica --back -- "$name" "$work/map"
  cp numbers "room/$name"
  trial "$name" quantify -- "$work/one" "$name"
  trial "$name" to_open_psa cuts "${asked[@]}" --numbers="$name" "$work/model"
  cp zones "room/$name"
  trial "$name" effects "$work/model" --apart too_weak "./$name"
  cp script "room/$name"
  trial "$name" step -- "$work/model" "$name"
  cp map "room/$name"
  trial "$name" from_altarica --back -- "$work/list" "$name"
  rm -f "room/$name"
  trial "$name" from_altarica --map="$name" "$work/model"
  written "$name" map
  trial "$name" join --out="$name" "$work/model"
  written "$name" joined
  trial "$name" draw units --dot --out="$name" "$work/model"
  written "$name" units.dot
  trial "$name" report "${asked[@]}" --stories 0 --out="$name" "$work/model"
  [ ! -e "room/$name" ] || grep -q '</html>' "room/$name" || wrong+="half a page: $name; "
  rm -f "room/$name"
  equal "the name $(printf '%q' "$name")" '' "$wrong"
  wrong=''
done
equal "${#names[@]} names leave nothing behind" '' "$(ls -A room)"

# Places that cannot be written: a line, status 4, and what was there before stays.
echo before >kept
chmod a-w . 2>/dev/null
for out in nowhere/picture room; do
  equal "--out $out is refused" '4 1' "$("$top/tools/draw" units model --dot --out "$out" >/dev/null 2>err; echo $?) $(grep -c . err)"
done
chmod u+w .
equal "standard output that is closed is said" '4 1' "$("$top/tools/lint" model >&- 2>err; echo $?) $(grep -c 'output is closed' err)"
equal "standard input that is closed is an empty list, which is none" 4 "$("$top/tools/compare" - list <&- 2>/dev/null >&2; echo $?)"
equal "an empty name of an observer is no use" 2 "$("$top/tools/lint" model --observer= 2>/dev/null; echo $?)"
equal "a full disk is said" 4 "$("$top/tools/draw" units model --dot --out /dev/full >/dev/null 2>&1; echo $?)"
for words in "lint $top/tests/lint/slips.alt" "why check model" "order model list" "compare list list" "line_as_script list 1" "draw units model --dot" \
  "report model --observer too_weak --stories 0" "to_open_psa cuts model --observer too_weak" "explain L10"; do
  # shellcheck disable=SC2086
  equal "standard output that takes nothing: ${words%% *}" '4 1' "$("$top"/tools/$words >/dev/full 2>err; echo $?) $(grep -v 'main block' err | grep -c .)"
done

# A crash of a helper itself is its status 4, and no finding.
mkdir -p broken
cp -r "$top/tools" "$top/docs" broken/
echo 'raise KeyError("slip")' >>broken/tools/lib/lint_events.py
printf 'def in_no_cut(blocks):\n    raise KeyError("slip")\n' >>broken/tools/lib/lint_events.py
sed -i '/^raise/d' broken/tools/lib/lint_events.py
equal "a fault of a helper is its status 4, with a line" "4 lint: this helper failed: KeyError: 'slip'" "$(broken/tools/lint model 2>err; echo "$? $(cat err)")"

# Standard error that takes nothing is a status of its own, and none that means "found something".
for words in "lint nosuch" "lint" "lint model --nosuch" "explain nonsense" "lint $top/examples/hydraulic.alt" "compare list nosuch" "from_altarica model --main nosuch"; do
  # shellcheck disable=SC2086
  equal "standard error that takes nothing: $words" 4 "$("$top"/tools/$words >/dev/full 2>/dev/full; echo $?)"
done
equal "a line feed in what is to be explained" '1 0' \
  "$("$top/tools/explain" $'nothing\nat all' >/dev/null 2>&1; echo $?) $("$top/tools/explain" $'rule: L10\nat 3:3\n' >/dev/null 2>&1; echo $?)"
equal "without its documentation a helper works" '0 0' \
  "$(PYTHONOPTIMIZE=2 "$top/tools/lint" model >/dev/null 2>&1; echo $?) $(PYTHONOPTIMIZE=2 "$top/tools/lint" --help >/dev/null 2>&1; echo $?)"

# Stopped in the middle: the status of the signal, and nothing is left of what was begun.
mkdir slow temporary
printf '#!/bin/sh\ncase " $* " in *" check "*) exec %q "$@" ;; esac\ntouch slow/waits\nexec sleep 60\n' "$ALTARICA" >slow/program
chmod +x slow/program
for signal in TERM:143 HUP:129 INT:130; do
  for words in "draw gates model --observer too_weak --out slow/picture" "fmea model" "story model list 1 --observer too_weak"; do
    rm -f slow/waits
    got=$(TMPDIR=$work/temporary ALTARICA=$work/slow/program python3 - "${signal%:*}" "$top"/tools/$words <<'END'
import os, signal, subprocess, sys, time
signal.signal(signal.SIGINT, signal.default_int_handler)
run = subprocess.Popen(sys.argv[2:], stdout=subprocess.DEVNULL, stderr=subprocess.PIPE)
for _ in range(600):
    if os.path.exists("slow/waits"):
        break
    time.sleep(0.05)
run.send_signal(getattr(signal, "SIG" + sys.argv[1]))
said = run.communicate()[1].decode()
print(run.returncode, said.strip())
END
)
    equal "stopped by ${signal%:*}: ${words%% *}" "${signal#*:}" "$({ echo "$got"; find temporary slow -mindepth 1 ! -name program ! -name waits; } | xargs)"
  done
done

# A model that changes while it is read is said.
cp model changing
printf '#!/bin/sh\necho "// changed" >>changing\nexec %q "$@"\n' "$ALTARICA" >slow/program
for words in "lint changing" "report changing --observer too_weak --out page" "effects changing"; do
  # shellcheck disable=SC2086
  equal "a model that changes in the middle: ${words%% *}" '4 1' \
    "$(ALTARICA=$work/slow/program "$top"/tools/$words >out 2>err; echo $?) $(grep -c 'changing has changed while it was read' err)"
done
equal "and no page is made of two models" '' "$(ls page 2>/dev/null)"
(printf 'bus.fail\n'; sleep 0.1; while ! grep -q 'fire bus' out; do sleep 0.1; done; echo '// changed' >>changing; echo back) | "$top/tools/step" changing >out 2>err
equal "also between two steps" '4 1' "$? $(grep -c 'changing has changed' out)"

# What can be read once alone is refused: it does not wait for a second time.
mkfifo pipe
for words in "lint pipe" "why check pipe" "fmea pipe" "report pipe --observer x" "lint /dev/stdin" "why check /dev/fd/0"; do
  # shellcheck disable=SC2086
  equal "a model that can be read once alone: $words" '4 1' "$(timeout 60 "$top"/tools/$words <model >/dev/null 2>err; echo $?) $(grep -c 'is no plain file' err)"
done
# A device has no end: it is no model and no list, and does not fill the memory.
for words in "join /dev/zero" "from_altarica /dev/full" "compare /dev/zero list" "compare list /dev/full"; do
  # shellcheck disable=SC2086
  equal "a device for a file: $words" '4 1' "$( (ulimit -v 4000000; timeout 60 "$top"/tools/$words >/dev/null 2>err; echo $?)) $(grep -c 'is a device, and no file' err)"
done
equal "a list may be a pipe" 0 "$(cat list >pipe & timeout 60 "$top/tools/compare" pipe list >/dev/null 2>&1; echo $?)"

equal "a pipe may be written to, and no folder is made a file" 'same same 4' "$("$top/tools/draw" units "$work/model" --dot --out /dev/stdout | cmp - units.dot && echo -n 'same '
  "$top/tools/draw" units "$work/model" --dot --out >(cat >piped); sleep 0.5; cmp piped units.dot && echo -n 'same '
  "$top/tools/draw" units model --dot --out new/ >/dev/null 2>&1; echo $?)"
# A file that is written over keeps its owner and its mode.
if [ "$(id -u)" -eq 0 ]; then
  echo before >owned
  chown 65534:65534 owned
  chmod 640 owned
  "$top/tools/draw" units model --dot --out owned
  equal "the owner and the mode stay" '65534 65534 640' "$(find owned -printf '%U %G %m\n')"
fi
equal "an older Python is said" '4 lint: this needs Python 3.9' \
  "$(python3 -c 'import argparse, runpy, sys, tempfile; sys.version_info = (3, 8); sys.argv = ["lint", "x"]; runpy.run_path("'"$top"'/tools/lint", run_name="__main__")' 2>err; echo "$? $(sed 's/,.*//' err)")"
