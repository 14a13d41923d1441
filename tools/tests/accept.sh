#!/usr/bin/env bash
# `accept` runs the cases on the program, and sees an answer that is not the stored one; `case` shows one, begins one, and takes
# what the program writes.
. "$(dirname "$0")/points.bash"

usage case
equal "accept says its use, and knows no other parts" '0 2 2' "$(tools/accept --help >/dev/null; echo $?) $(tools/accept nosuch >/dev/null 2>&1; echo $?) $(tools/accept --nosuch >/dev/null 2>&1; echo $?)"
mkdir -p "$work/copy/crates"
cp -r tools VERSION "$work/copy/"
mkdir "$work/copy/crates/altarica_cases"
cp -r crates/altarica_cases/{data,src,stdout} "$work/copy/crates/altarica_cases/"
cd "$work/copy" || exit 1
real=$(readlink -f -- "$(type -P -- "$ALTARICA")")
export ALTARICA=$real
list=crates/altarica_cases/stdout
data=crates/altarica_cases/data
all=$(find $data -name words | wc -l) fails=$(find $data -name fails | wc -l)
equal "the cases that are stored are answered so, and the rest is counted" \
  "cases: $((all - fails)) passed, 0 failed|left out: $fails cases over files and outputs that are made to fail|$((all - fails)) passed, 0 failed status 0" \
  "$(said=$(tools/accept cases); status=$?; echo "$(sed 's/ in [0-9]* s$//' <<<"$said" | paste -sd'|') status $status")"
equal "what the program of cases writes begins with a line for each folder" '' \
  "$(for case in $(find $data -name words -printf '%P\n' | sed 's|/words$||' | LC_ALL=C sort); do echo "$case: status $(cat "$data/$case/status")"; done | diff - <(head -n "$all" $list) | head -n 4)"
equal "case shows one" '0 1' "$(tools/case two-values >said; echo $?) $(grep -c '^fault: e: two values for s$' said)"
sed -i 's/two values for s/two values for t/' $data/two-values/stdout
equal "an answer that is not the stored one is seen" '1 1 1' \
  "$(tools/accept cases >said; echo $?) $(grep -c '^failed: cases: two-values (status 5, wanted 5; line 3 is `fault: e: two values for s`, wanted `fault: e: two values for t`)$' said) $(tools/case two-values >/dev/null; echo $?)"
tools/case two-values --accept >/dev/null 2>&1
equal "and taken, with nothing else changed" '' "$(diff -r crates/altarica_cases/data "$top/crates/altarica_cases/data"; cmp $list "$top/$list" 2>&1)"

# A case that is new.
equal "a case is begun" '0 check model' "$(tools/case two-values-more --new 'check model' 2>said; echo $?) $(cat $data/two-values-more/words)"
equal "and what belongs to it is said" 1 "$(grep -c 'put there model, status, stdout$' said)"
equal "not twice, and not under any name" '4 2 4' \
  "$(for name in two-values-more ../there plants; do tools/case "$name" --new 'check model' >/dev/null 2>&1; echo $?; done | xargs)"
echo 'block B Boolean s (init = true); end' >$data/two-values-more/model
equal "it has nothing stored" '1 1' "$(tools/case two-values-more >said 2>&1; echo $?) $(grep -c '^stored: status none$' said)"
printf 'ok units 1 variables 1 events 0 observers 0\n' >$data/two-values-more/stdout
echo 0 >$data/two-values-more/status
equal "where it is written by hand, it is not in the list of all" '1 1' "$(tools/case two-values-more >said 2>&1; echo $?) $(grep -c 'has no line of it' said)"
tools/case two-values-more --accept >/dev/null 2>&1
equal "and then it is, in its place" 'two-values: status 5|two-values-more: status 0|0' "$(grep -A1 '^two-values: ' $list | paste -sd'|')|$(tools/case two-values-more >/dev/null 2>&1; echo $?)"
equal "with no other line changed" 1 "$(diff "$top/$list" $list | grep -c '^[<>]')"
equal "a case that is not there is said, and one over files that are made to fail" '4 4 1' \
  "$(tools/case nosuch >/dev/null 2>&1; echo $?) $(tools/case first-load-fails >said 2>&1; echo $?) $(grep -c '^stored: status 7 faults 1 0$' said)"
cp -r $data/first-load-fails $data/first-load-fails-too
equal "of which the line is put into the list" '0 1' "$(tools/case first-load-fails-too --accept >/dev/null 2>&1; echo $?) $(grep -c '^first-load-fails-too: status 7 faults 1 0$' $list)"
