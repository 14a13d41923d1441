#!/usr/bin/env bash
# altarica.1 is a page without a warning, and has the commands, options and statuses of docs/use/TEXTS.md.
. "$(dirname "$0")/points.bash"

plain=$(sed 's/\\-/-/g; s/\\f[BIR]//g' altarica.1)
equal "TEXTS has ten commands" 10 "$(commands | wc -l)"
while read -r words; do
  grep -qx ".B ${words%% *}" altarica.1 || echo "${words%% *}"
done <<<"$(commands)" >"$work/missing"
equal "the page has each command of TEXTS" '' "$(cat "$work/missing")"
while read -r words; do
  grep -qxF "altarica $words" <<<"$plain" || echo "$words"
done <<<"$(commands)" >"$work/missing"
equal "the page has the words of each command as TEXTS has them" '' "$(cat "$work/missing")"
equal "the page has each status" "$(seq -s' ' 0 12)" "$(sed -n '/^.SH EXIT/,/^.SH EXAMPLES/s/^.B \([0-9]*\)$/\1/p' altarica.1 | paste -sd' ')"
equal "the page has the number of VERSION" "$(cat VERSION)" "$(sed -n 's/^\.TH .*"Rewhutami \([0-9.]*\)".*/\1/p' altarica.1)"
equal "the newest heading of CHANGES.md has the number of VERSION" "$(cat VERSION)" "$(sed -n 's/^## \([0-9.]*\),.*/\1/p' CHANGES.md | head -n 1)"
if have groff; then
  equal "groff has nothing to say of the page" '' "$(groff -man -Tutf8 -ww altarica.1 2>&1 >/dev/null)"
else
  skipped "whether groff reads the page" groff
fi
