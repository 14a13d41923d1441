#!/usr/bin/env bash
# SCRAM as a peer: the cut sets of the examples, of models of HOWTO and of 50 random static models are those that SCRAM finds in
# the exported cuts and in the exported fault tree, by each of its three ways. Its usual limit of 20 events drops longer sets
# silently, so it is asked with a limit above the largest set.
. "$(dirname "$0")/points.bash"

if ! have scram; then
  skipped "SCRAM as a peer" scram
  exit 0
fi

# agrees MODEL WORDS..: says where SCRAM finds other sets than the program.
agrees() { python3 tools/tests/scram.py "$@" 2>&1 | tail -n 3; }

for plant in brake bus hydraulic pumps ring; do
  read -ra words <<<"$(words_of $plant)"
  equal "SCRAM finds the cut sets of $plant, in its cuts and in its fault tree, by each of three ways" '' "$(agrees "examples/$plant.alt" "${words[@]}")"
done
while read -r model observer; do
  equal "SCRAM finds the cut sets of $model" '' "$(agrees "tests/models/howto/$model.alt" --observer "$observer")"
done <<'END'
common_cause lost
spare lost
start_or_run loss_of_flow
protection no_trip
monitor erroneous
trains no_flow
END
wrong=''
for seed in $(seq 1 50); do
  python3 tools/tests/random_static.py "$seed" >"$work/random.alt"
  said=$(agrees "$work/random.alt" --observer lost)
  [ -z "$said" ] || wrong+="seed $seed: $said; "
done
equal "SCRAM finds the cut sets of 50 random static models" '' "$wrong"

# A cut of 25 events.
{
  echo 'class C Boolean up (init = true); event fail; transition fail: up -> up := false; end'
  echo 'block B'
  for k in $(seq 1 25); do echo "  C c$k;"; done
  echo "  observer Boolean lost = $(for k in $(seq 1 25); do printf '%snot c%s.up' "$([ "$k" -gt 1 ] && echo ' and ')" "$k"; done);"
  echo end
} >"$work/long.alt"
equal "a cut of 25 events is found with a limit above it" '' "$(agrees "$work/long.alt" --observer lost)"
tools/to_open_psa cuts "$work/long.alt" --observer lost >"$work/long.xml"
scram --zbdd "$work/long.xml" -o "$work/report.xml" >/dev/null 2>&1
equal "with SCRAM's usual limit it is dropped" 'count 0' "$(tools/to_open_psa back "$work/long.xml" "$work/report.xml")"
sed -n 's/^way \([^#]*\)#1.*/\1 0.01/p' <("$ALTARICA" flat tests/models/howto/spare.alt) >"$work/numbers"
tools/to_open_psa cuts tests/models/howto/spare.alt --observer lost --numbers "$work/numbers" >"$work/numbers.xml"
equal "SCRAM computes a probability from the cuts with their numbers" 1 \
  "$(scram --probability 1 "$work/numbers.xml" 2>/dev/null | grep -c '<sum-of-products .*probability="0.000[0-9]*"')"
tools/to_open_psa cuts tests/models/howto/spare.alt --observer lost >"$work/bare.xml"
equal "and refuses to where they have none" 1 "$(scram --probability 1 "$work/bare.xml" 2>&1 | grep -c 'do not have expressions')"
