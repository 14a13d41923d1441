#!/usr/bin/env bash
# Tries what is said of the sources as a whole, and the program on mutated models.
set -u
point() {
  local what=$1
  shift
  local out
  if out=$("$@" 2>&1); then echo "passed: $what"; else echo "failed: $what ($(tail -n 3 <<<"$out" | tr '\n' ' '))"; fi
}

# Want of memory comes from the allocator and from the named caps alone, and a body of a function is in one file, but for
# those that docs/develop/DECISIONS.md names.
point "no place answers want of memory by itself" tools/memory_places
point "no body of a function is in two files" tools/twins
# Memory that is refused call by call, and in a small room; every 97th call here, and by hand each.
if command -v cc >/dev/null; then
  point "where memory is refused a run ends soon, with its answer or with status 9" tools/short_memory "$ALTARICA" 97
else
  echo "skipped: runs where memory is refused (apt-get install gcc)"
fi
point "mutated models end with a status, and none for want of memory" tools/mutate "$ALTARICA" 3000

# Files that import each other, functions with more than five parameters, crates: no more than there are.
shape=$(tools/shape | tail -n 1)
no_more() { [ "$(sed -n "s/.*$1 \([0-9]*\).*/\1/p" <<<"$shape")" -le "$2" ]; }
point "no files of a crate import each other" no_more circles 0
point "at most 2 files begin with a private function before a public one" no_more 'private first' 2
point "at most 99 functions have more than five parameters" no_more 'six parameters' 99
point "there are at most 70 crates" no_more crates 70

# Of all definitions hardly two have one name.
few_names() { [ "$(tools/words --all | grep -c '^[A-Za-z_]*: [a-z_]*/')" -le 40 ]; }
point "at most 40 names of definitions have two meanings" few_names

# Each name of a definition that must be believed has one meaning, and PROMISES names their files and counts their lines.
point "each name that must be believed has one meaning" tools/words
point "the files that must be believed, and their lines, are those of PROMISES" python3 tools/tests/believed.py
