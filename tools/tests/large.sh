#!/usr/bin/env bash
# Listings of 1,000,000 cuts go through `compare`, `order`, `line_as_script` and `report` in at most 60 seconds of the processor and
# one gigabyte each.
. "$(dirname "$0")/points.bash"

# costs COMMAND..: `within` where the command and what it started take no more, else what they took.
costs() {
  python3 -c '
import os, resource, subprocess, sys
status = subprocess.run(sys.argv[1:], stdout=subprocess.DEVNULL).returncode
used = resource.getrusage(resource.RUSAGE_CHILDREN)
seconds, megabytes = used.ru_utime + used.ru_stime, used.ru_maxrss / 1000
print("within" if status == 0 and seconds <= 60 and megabytes <= 1000 else "status %d, %.0f s, %.0f MB" % (status, seconds, megabytes))' "$@"
}

python3 - >"$work/large.alt" <<'END'
units = {group: ["%s%d" % (group, n) for n in range(100)] for group in "abc"}
print("class C Boolean up (init = true); event fail; transition fail: up -> up := false; end\nblock B")
for names in units.values():
    print("  C %s;" % ", ".join(names))
print("  observer Boolean lost = %s;\nend" % " and ".join("(%s)" % " or ".join("not %s.up" % it for it in names) for names in units.values()))
END
python3 - >"$work/list" <<'END'
import sys
for a in range(100):
    for b in range(100):
        sys.stdout.write("".join("{c%d.fail, a%d.fail, b%d.fail}\n" % (c, a, b) for c in range(100)))
print("count 1000000")
END
equal "compare of two listings of 1,000,000 cuts" within "$(costs tools/compare "$work/list" "$work/list")"
equal "line_as_script of a listing of 1,000,000 cuts" within "$(costs tools/line_as_script "$work/list" 999999)"
equal "order of a listing of 1,000,000 cuts" within "$(costs tools/order "$work/large.alt" "$work/list")"
if grep -q __asan_init "$ALTARICA"; then

  echo "skipped: report of 1,000,000 cuts (that is asked of a proved program: rt ci)"
else
  equal "report of 1,000,000 cuts" within "$(costs tools/report "$work/large.alt" --observer lost --out "$work/large.html")"
  equal "its page has them" '<b class="found">1000000' "$(grep -o '<b class="found">[0-9]*' "$work/large.html")"
fi
