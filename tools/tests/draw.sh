#!/usr/bin/env bash
# `draw` on the example plants: the gates that it shows have the values of `equations`, each unit and each mode is there,
# and without `dot` no picture is written.
. "$(dirname "$0")/points.bash"
usage draw

for plant in brake bus conflict hydraulic pumps ring; do
  read -ra words <<<"$(words_of $plant)"
  equal "the gates of $plant that are drawn have the values of its equations" '' "$(python3 tools/tests/smaller.py "examples/$plant.alt" "${words[@]}" 2>&1 | head -n 3)"
done
for seed in 1 53 126; do
  python3 tools/tests/random_static.py $seed >"$work/random.alt"
  equal "the gates of random model $seed that are drawn have the values of its equations" '' "$(python3 tools/tests/smaller.py "$work/random.alt" --observer lost 2>&1 | head -n 3)"
done
equal "the gates of vote2 that are drawn have the values of its equations" '' "$(python3 tools/tests/smaller.py tests/beside/vote2.alt --observer no_trip 2>&1 | head -n 3)"
equal "the gates of the aircraft that are drawn have the values of its equations" '' "$(python3 tools/tests/smaller.py tests/models/howto/aircraft.alt --observer pitch_lost 2>&1 | head -n 3)"
# By hand: where the first or the second has failed, the third says nothing more. There are 2^20 sets that can be fired.
{
  printf 'class Part\n  Boolean ok (init = true);\n  event fail;\n  transition fail: ok -> ok := false;\nend\nblock Plant\n  Part p0'
  printf ', p%d' {1..19}
  printf ';\n  observer Boolean lost = (not p0.ok or not p1.ok) and (not p0.ok or not p1.ok or not p2.ok) and (not p3.ok'
  printf ' or not p%d.ok' {4..19}
  printf ');\nend\n'
} >"$work/many.alt"
equal "an operand that is no news is left out of a model with many sets too" '0 1 1' \
  "$(tools/draw gates "$work/many.alt" --observer lost --dot >"$work/many.dot"; for event in p2 p1 p19; do grep -c ">$event.fail&" "$work/many.dot"; done | xargs)"

nodes() { grep -c '^ *\("[^"]*"\|[a-z0-9]*\) \[.*label=<' "$1"; }
for plant in brake bus conflict hydraulic pumps repair ring supply; do
  tools/draw units "examples/$plant.alt" --dot >"$work/units.dot"
  units=$("$ALTARICA" check "examples/$plant.alt" | cut -d' ' -f3)
  aliases=$(grep -c 'embeds' "examples/$plant.alt")
  equal "each unit of $plant is drawn once" $((units + aliases)) "$(nodes "$work/units.dot")"
done
for plant in brake bus conflict hydraulic pumps ring; do
  read -ra words <<<"$(words_of $plant)"
  drop=()
  [ "${words[2]-}" = --drop ] && drop=(--drop "${words[3]}")
  tools/draw modes "examples/$plant.alt" "${drop[@]}" --dot >"$work/modes.dot"
  modes=$("$ALTARICA" fragment "examples/$plant.alt" "${drop[@]}" | grep -vc '^events')
  equal "each mode of $plant is drawn once" "$modes" "$(nodes "$work/modes.dot")"
done
for model in tests/beside/*.alt; do
  tools/draw units "$model" --dot >"$work/units.dot"
  equal "each unit of $model is drawn once" "$("$ALTARICA" check "$model" | cut -d' ' -f3)" "$(nodes "$work/units.dot")"
done
equal "no picture is made of a model that is refused, and the status is 3" '3' \
  "$(for model in tests/mistakes/*.alt tests/literature/*.alt; do tools/draw units "$model" >/dev/null 2>&1; echo $?; done | sort -u | paste -sd' ')"
equal "a refused model is said" 'draw: examples/supply.alt: outside: S1 at lose_grid (status 4) status 3' "$(tools/draw modes examples/supply.alt 2>&1) status $(tools/draw modes examples/supply.alt >/dev/null 2>&1; echo $?)"
equal "too many nodes are said" 'draw: 18 nodes are more than 3: --most 18 draws them' "$(tools/draw units examples/brake.alt --most 3 2>&1)"

# By hand: each station has two inputs of two values each, the north one a third value, and the observer reads the south one.
tools/draw flows examples/ring.alt --observer south_is_deaf --dot >"$work/flows.dot"
equal "the arrows of the flows of ring" 18 "$(grep -c ' -> ' "$work/flows.dot")"
equal "its boxes are its units, what the main block has, and the observer" 10 "$(nodes "$work/flows.dot")"
equal "the values are those at the start" '4 4 1' "$(for row in works whole south_is_deaf; do
  grep -o ">\(<b>\)\?$row\(</b>\)\?&#160;</td><td[^>]*>\(true\|false\)&" "$work/flows.dot" | grep -c "$([ $row = south_is_deaf ] && echo false || echo true)&"; done | xargs)"
equal "of a large system what is near the observer is drawn, and the picture says so" '6 the 5 boxes of 9 that are nearest to south_is_deaf' \
  "$(tools/draw flows examples/ring.alt --observer south_is_deaf --dot --most 5 >"$work/few.dot"; nodes "$work/few.dot") $(grep -o 'the 5 boxes[^\]*' "$work/few.dot")"
cat >"$work/nested.alt" <<'END'
class Inner
  Boolean ok (init = true);
  Boolean out (reset = false);
  event fail;
  transition fail: ok -> ok := false;
  assertion out := ok;
end
class Outer
  Inner a, b;
  Boolean out (reset = false);
  assertion out := a.out or b.out;
end
block Plant
  Outer x, y;
  observer Boolean lost = not x.out and not y.out;
end
END
equal "of a nested one units are folded, with how many units are in them" '3 +2 +2' \
  "$(tools/draw flows "$work/nested.alt" --observer lost --dot --most 2 >"$work/folded.dot"; nodes "$work/folded.dot") $(grep -o '+2' "$work/folded.dot" | xargs)"
equal "flows takes no --drop, and no observer that is not there" '2 4' \
  "$(tools/draw flows examples/ring.alt --drop x >/dev/null 2>&1; echo $?) $(tools/draw flows examples/ring.alt --observer x >/dev/null 2>&1; echo $?)"

read -ra words <<<"$(words_of ring)"
python=$(python3 -c 'import sys; print(sys.executable)')
mkdir "$work/bin"
PATH=$work/bin "$python" tools/draw gates examples/ring.alt "${words[@]}" >"$work/without" 2>"$work/said"
drawn=$?
equal "without dot no picture is written, and a line says so" '4 0 1' "$drawn $(wc -c <"$work/without") $(grep -c 'apt-get install graphviz' "$work/said")"

if have dot; then
  texts() { grep -o '<text [^>]*>[^<]*' "$1" | sed 's/.*>//' | LC_ALL=C sort; }
  tools/draw gates examples/ring.alt "${words[@]}" --out "$work/ring.svg"
  equal "docs/pictures/ring.svg has the gates of ring" "$(texts docs/pictures/ring.svg)" "$(texts "$work/ring.svg")"
  for kind in units modes flows; do
    tools/draw $kind tests/beside/vote2.alt --out "$work/$kind.svg"
  done
  if have xmllint; then
    for file in "$work"/*.svg; do holds "$(basename "$file") is XML" xmllint --noout --nonet "$file"; done
  else
    skipped "whether the pictures are XML" libxml2-utils
  fi
else
  skipped "the pictures themselves" graphviz
fi
