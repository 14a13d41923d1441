#!/usr/bin/env bash
# The pages that `write_pages` writes from the sources are what it writes, and it sees where one is not.
. "$(dirname "$0")/points.bash"

equal "write_pages says its use" '0 4 2' "$(tools/write_pages --help >/dev/null; echo $?) $(tools/write_pages --help >/dev/full 2>/dev/null; echo $?) $(tools/write_pages --nosuch >/dev/null 2>&1; echo $?)"
for page in DEFINITIONS LAWS PROMISES_BY_CRATE EDITS; do
  equal "docs/trust/$page.md is what write_pages writes" '' "$(tools/write_pages --check 2>&1 | grep "^$page:")"
done
equal "write_pages finds no difference" 0 "$(tools/write_pages --check >/dev/null 2>&1; echo $?)"

# In a copy: a comment, a clause and an edit that changed are seen, and written.
mkdir -p "$work/copy/docs"
cp -r tools crates.txt "$work/copy/"
cp -r docs/trust "$work/copy/docs/"
for crate in crates/*/; do
  mkdir -p "$work/copy/$crate"
  for folder in src specs must-fail; do [ ! -d "$crate$folder" ] || cp -r "$crate$folder" "$work/copy/$crate"; done
done
cd "$work/copy" || exit 1
sed -i 's/^-- the greatest number that each count may have$/-- the largest one/' crates/ar_base/specs/Counts.antt
sed -i 's/ensures first {/ensures foremost {/' crates/min_cuts/src/lister.rt
equal "a comment and a clause that changed are seen" 'DEFINITIONS PROMISES_BY_CRATE status 1' \
  "$(tools/write_pages --check | sed 's/:.*//' | paste -sd' ') status $(tools/write_pages --check >/dev/null; echo $?)"
tools/write_pages
equal "and written" '1 1 0' "$(grep -c '`limit_of`: the largest one' docs/trust/DEFINITIONS.md) $(grep -c '`foremost`' docs/trust/PROMISES_BY_CRATE.md) $(tools/write_pages --check >/dev/null; echo $?)"
rm crates/flow_reasons/must-fail/*.edit
equal "an edit that is gone has to leave its line" '4 1' "$(tools/write_pages --check >/dev/null 2>said; echo $?) $(grep -c 'flow_reasons any_assignment_named' said)"
