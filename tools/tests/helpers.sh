#!/usr/bin/env bash
# The helpers for the sources say their use and do nothing on --help, and know no other words than their own.
. "$(dirname "$0")/points.bash"
for tool in explain mutate short_memory measure costs.py; do usage $tool; done

# These do their work without words.
for tool in twins words memory_places shape; do
  said=$(tools/$tool --help 2>&1)
  status="$? $(tools/$tool --help >/dev/full 2>/dev/null; echo $?) $(tools/$tool --no-such-word >/dev/null 2>&1; echo $?)"
  equal "$tool says its use with --help, and knows no other words" '0 4 2' "$status"
  equal "$tool says its statuses" 1 "$(grep -c '^Status: 0 ' <<<"$said")"
  equal "$tool outside of a repository says that it could not" 4 "$(cd "$work" && "$top/tools/$tool" >/dev/null 2>&1; echo $?)"
done
equal "mutate outside of a repository says that it could not" 4 "$(cd "$work" && "$top/tools/mutate" "$ALTARICA" 1 >/dev/null 2>&1; echo $?)"
equal "mutate makes the same texts of the same seed" "$(tools/mutate "$ALTARICA" 10 3)" "$(tools/mutate "$ALTARICA" 10 3)"
equal "try says its use, and runs nothing" 0 "$(tools/try --help | grep -c '^[0-9].* passed')"
