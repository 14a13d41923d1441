#!/usr/bin/env bash
# `report` on the example plants, and opened in a browser: the cuts are shown, the filters filter, and a picture of the
# page is made.
. "$(dirname "$0")/points.bash"
usage report

page() {
  local plant=$1 words
  read -ra words <<<"$(words_of "$plant")"
  tools/report "examples/$plant.alt" "${words[@]}" --stories 2 --out "$2"
}
found() { grep -o '<b class="found">[0-9]*' "$1" | grep -o '[0-9]*$' | xargs; }
for plant in brake bus conflict hydraulic pumps repair ring supply; do
  case $plant in conflict | repair | supply) wanted=3 ;; *) wanted=0 ;; esac
  equal "the page of $plant is made, with status $wanted" $wanted "$(page $plant "$work/$plant.html" >/dev/null 2>&1; echo $?)"
  case $(head -n 1 "examples/$plant.cuts") in
    "{"*) want=$(grep -c '^{' "examples/$plant.cuts"); got=$(found "$work/$plant.html") ;;
    *) want=$(head -n 1 "examples/$plant.cuts"); got=$(sed 's/&quot;/"/g; s/&#x27;/'"'"'/g' "$work/$plant.html" | grep -oF "$want" | head -n 1) ;;
  esac
  equal "the page of $plant says how many cuts there are, or why there are none" "$want" "$got"
done
for model in standby:lost train:lost twoway3:lost vote:no_trip vote2:no_trip wear:odd; do
  IFS=: read -r name observer <<<"$model"
  case $name in *2 | wear) wanted=0 ;; *) wanted=3 ;; esac
  equal "the page of $name is made, with status $wanted" $wanted "$(tools/report "tests/beside/$name.alt" --observer "$observer" --out "$work/$name.html" >/dev/null 2>&1; echo $?)"
done
equal "the page of vote2 has its 17 cuts, that of wear none, that of vote its fault" '17 0 34:7' \
  "$(found "$work/vote2.html") $(found "$work/wear.html") $(grep -o 'assignment 2 at 34:7' "$work/vote.html" | head -n 1 | grep -o '34:7')"
page brake "$work/again.html"
holds "the same words make the same page" cmp "$work/brake.html" "$work/again.html"
equal "the page has no outside parts" '' "$(grep -Eo '<link|<script [^>]*src|<img|@import|url\(|href="[^#"][^"]*"|xlink:href="[^#"]*"' "$work/brake.html" | head -n 3)"
equal "the page names the sums of the model and of the program" 2 \
  "$(grep -o -e "$(sha256sum <examples/brake.alt | cut -d' ' -f1)" -e "$(sha256sum <"$ALTARICA" | cut -d' ' -f1)" "$work/brake.html" | wc -l)"
equal "a list that is refused is said, with its line and status" 'report: examples/supply.alt: outside: S1 at lose_grid (status 4); the page shows why' \
  "$(tools/report examples/supply.alt --observer dark --out "$work/supply.html" 2>&1)"
equal "and the page shows the line with its status, in each part that is refused" 4 "$(grep -c 'line: outside: S1 at lose_grid (status 4)' "$work/supply.html")"
equal "an observer that is misspelt has no page, and status 3" 'report: examples/brake.alt: script: no observer (status 11) status 3 no page' \
  "$(tools/report examples/brake.alt --observer too_wek --out "$work/none.html" 2>&1) status $(tools/report examples/brake.alt --observer too_wek >/dev/null 2>&1; echo $?) $([ -e "$work/none.html" ] || echo no page)"
# What the page says of the program is what the script knows of it by its notes.
mkdir -p "$work/repo"/crates/altarica_main/{src,specs,proofs,out} "$work/repo/out"
cp -r tools docs altarica "$work/repo/"
echo 'altarica_main:' >"$work/repo/crates.txt"
echo source >"$work/repo/crates/altarica_main/src/text"
proved() {
  (cd "$work/repo" && env "$@" tools/report "$top/examples/brake.alt" --observer too_weak 2>"$work/said") |
    sed -n 's/.*id="proved"[^>]*>The program that made the lists is \([^:.<]*\).*/\1/p'
  sed 's/[,:].*//' "$work/said" | grep -v '^report$'
}
cp "$ALTARICA" "$work/elsewhere"
kept=$work/repo/out/altarica gate=$work/repo/crates/altarica_main/out/altarica_main
cp "$ALTARICA" "$work/repo/out/unproved"
equal "the page says that a program without its proofs is not proved" 'not proved' "$(proved -u ALTARICA)"
equal "also where ALTARICA names a copy of it" 'not proved' "$(proved ALTARICA="$work/elsewhere")"
rm "$work/repo/out/unproved"
equal "of a program from elsewhere it says that this is not known" 'not known to be proved' "$(proved ALTARICA="$work/elsewhere")"
cp "$ALTARICA" "$kept"
printf 'sum\n%s\nkit\n%s\n' "$(sha256sum <"$kept")" "$(find "$kept" -printf '%s %T@ %C@ %i\n')" >"$kept.made_of"
equal "nor is it known of one whose note has the sum of other sources" 'not known to be proved' "$(proved -u ALTARICA)"
rm "$kept.made_of"
equal "nor of one without a note" 'not known to be proved' "$(proved -u ALTARICA)"
sum=$("$work/repo/altarica" --version | sed -n 's/^sum of the sources and proofs: //p')
printf '%s  -\n%s\nkit\n%s\n' "$sum" "$(sha256sum <"$kept")" "$(find "$kept" -printf '%s %T@ %C@ %i\n')" >"$kept.made_of"
equal "of the one whose note has the sum of these sources it says so" 'the proved one of this checkout' "$(proved -u ALTARICA)"
equal "also where ALTARICA names a copy of it" 'the proved one of this checkout' "$(proved ALTARICA="$work/elsewhere")"
echo another >"$work/repo/crates/altarica_main/src/text"
equal "once a source has changed it does not" 'not known to be proved' "$(proved -u ALTARICA)"
rm "$kept" "$kept.made_of"
cp "$ALTARICA" "$gate"
equal "the program of the gate that is newer than all sources is the proved one" 'the proved one of this checkout' "$(proved -u ALTARICA)"
sleep 0.02
echo newer >"$work/repo/crates/altarica_main/proofs/text"
equal "and none that is known to be where a proof is newer" 'not known to be proved' "$(proved -u ALTARICA)"
rm "$gate"
mkdir "$work/bin"
ln -s "$work/repo/altarica" "$work/bin/altarica"
equal "a helper does not take the script, which would begin the proofs" '4 1' \
  "$(cd "$work/repo" && env -u ALTARICA PATH="$work/bin:$PATH" timeout 60 tools/lint "$top/examples/brake.alt" >/dev/null 2>"$work/said"; echo "$? $(grep -c 'there is no program' "$work/said")")"
# By hand: docs/use/EXAMPLES.md finds the cut sets of the ring, three of one event and nine of two; HOWTO_LISTING counts those of the aircraft.
equal "the head has the number of cut sets by their events" '3 with 1 event 9 with 2 events' \
  "$(grep -o '<span class="count">.*' "$work/ring.html" | head -n 1 | sed 's|</td>.*||; s/<[^>]*>//g' | xargs)"
equal "and the single failures by name" 'lose_head_end, north.fail, south.fail' \
  "$(grep -o '<th>single failures</th><td>.*' "$work/ring.html" | sed 's|</td>.*||; s/<[^>]*>//g; s/single failures//')"
equal "the list has a row for each cut set, without the script, those with the fewest events first" "1 2 6 3 4 5 7 8 9 10 11 12" \
  "$(sed -n '/<section id="cuts0"/,/<\/section>/p' "$work/ring.html" | grep -o '<tr><td>[0-9]*' | grep -o '[0-9]*$' | xargs)"
equal "the first two have their stories" 2 "$(grep -o '<summary>how it happens' "$work/ring.html" | wc -l)"
holds "a story ends with why" grep -q 'At the end south_is_deaf = true' "$work/ring.html"
tools/report tests/models/howto/aircraft.alt --observer green_lost,brakes_lost --stories 0 --out "$work/aircraft.html"
equal "several observers, each with its list" '28 96 cuts0 cuts1 gates0 gates1' "$(found "$work/aircraft.html") $(grep -o '<section id="\(cuts\|gates\)[0-9]' "$work/aircraft.html" | cut -d'"' -f2 | xargs)"
cells() { sed -n "/<section id=\"$1\"/,/<\/section>/p" "$work/aircraft.html" | grep -o '<tr><td>.*' | sed 's|</tr>|\n|g; s|</td><td>|,|g; s/<[^>]*>//g' | grep -v '^$'; }
equal "the table of events is that of effects" "$(tools/effects tests/models/howto/aircraft.alt green_lost,brakes_lost --events | sed 1d | sed 's/  */ /g; s/ (/(/g' | LC_ALL=C sort)" \
  "$(cells effects | sed 's/ (/(/g; s/,/ /g' | LC_ALL=C sort)"
equal "the table of single failures is that of fmea" "$(tools/fmea tests/models/howto/aircraft.alt 2>/dev/null | sed 1d | sed 's/  */ /g')" "$(cells fmea | sed 's/&gt;/>/g; s/,/ /g; s/  */ /g')"
equal "of several observers one that is refused is said, with status 3" '3 1' \
  "$(tools/report examples/conflict.alt --observer low --stories 0 --out "$work/conflict.html" 2>/dev/null; echo $?) $(grep -c '<b class="bad">not listed' "$work/conflict.html")"
equal "an observer that is named twice, and stories that are no number, are no use" '2 2' \
  "$(for words in '--observer dry,dry' '--observer dry --stories x'; do tools/report examples/pumps.alt $words >/dev/null 2>&1; echo $?; done | xargs)"
printf 'block M\n  Boolean ok (init = true);\n  event fail, mend;\n  transition\n    fail: ok -> ok := false;\n    mend: not ok -> ok := true; // \xe2\x80\xae<script>alert(1)</script>\n  observer Boolean lost = not ok;\nend\n' >"$work/turned.alt"
tools/report "$work/turned.alt" --observer lost --out "$work/turned.html" 2>/dev/null
equal "remarks in a refusal are text, and turn no line around" 'text 0 0' \
  "$(grep -q '202e.*&lt;script&gt;alert' "$work/turned.html" && echo text) $(grep -c '<script>alert' "$work/turned.html") $(grep -c $'\xe2\x80\xae' "$work/turned.html")"
equal "a model that is refused as a whole has no page" 3 "$(tools/report tests/mistakes/semi.alt --observer x >/dev/null 2>&1; echo $?)"

if have chromium; then
  browser() { timeout 100 chromium --headless --no-sandbox --disable-gpu --disable-dev-shm-usage --user-data-dir="$work/browser" "$@" 2>/dev/null; }
  shown() { grep -o '<span class="shown">[^<]*' "$work/dom" | sed 's/.*>//'; }
  browser --dump-dom "file://$work/brake.html#size=1" >"$work/dom"
  equal "the filter by size shows the single failure" '1 of 28 cut sets' "$(shown)"
  browser --dump-dom "file://$work/brake.html#unit=front_left&by=size" >"$work/dom"
  equal "the filter by unit shows the cuts with a failure of the front left wheel" "$(grep -c front_left examples/brake.cuts) of 28 cut sets" "$(shown)"
  browser --hide-scrollbars --window-size=1100,3000 --screenshot="$work/page.png" "file://$work/brake.html" >/dev/null
  python3 tools/tests/report_page.py "$work/aircraft.html" "$work/ring.html"
  equal "a picture of the page is made" 'PNG image data, 1100 x 3000' \
    "$(python3 -c 'import struct, sys; b = open(sys.argv[1], "rb").read(24); print(b[1:4].decode(), "image data, %d x %d" % struct.unpack(">II", b[16:24]))' "$work/page.png" 2>&1)"
else
  skipped "the page in a browser" chromium
fi
