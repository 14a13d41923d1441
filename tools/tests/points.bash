# For the tests of the helpers: one line a point, and a folder for what they make.
set -u
top=$(dirname "$(dirname "$(dirname "$(readlink -f "${BASH_SOURCE[0]}")")")")
cd "$top" || exit 1
: "${ALTARICA:?names the program under test}"
work=$(mktemp -d)
# The interpreter itself, where python3 on the path is a script that starts it.
if [ "$(head -c 2 -- "$(type -P python3)")" = '#!' ]; then PATH=$(dirname "$(python3 -c 'import sys; print(sys.executable)')"):$PATH; fi
trap 'rm -rf "$work"' EXIT

passed() { echo "passed: $*"; }
failed() { echo "failed: $1 ($(tr '\n' ' ' <<<"${2-}" | cut -c1-300))"; }
skipped() { echo "skipped: $1 (apt-get install $2)"; }
have() { command -v "$1" >/dev/null; }

# equal WHAT WANTED GOT: the texts are equal.
equal() {
  if [ "$2" = "$3" ]; then passed "$1"; else failed "$1" "$(diff <(printf '%s\n' "$2") <(printf '%s\n' "$3") | head -n 4)"; fi
}

# holds WHAT COMMAND..: the command ends with status 0.
holds() {
  local what=$1 said
  shift
  if said=$("$@" 2>&1); then passed "$what"; else failed "$what" "$said"; fi
}

# models_of_cases PATTERN..: the models of the cases of these names, one of those that are the same.
models_of_cases() {
  local pattern
  # shellcheck disable=SC2086
  for pattern; do sha256sum crates/altarica_cases/data/$pattern/model; done | sort | awk '!seen[$1]++ { print $2 }' | sort
}

# The words with which the example plants are asked for their cuts, as docs/use/EXAMPLES.md gives them.
words_of() {
  case $1 in
    brake) echo --observer too_weak ;;
    bus) echo --observer dark --drop left_feeder.close,right_feeder.close,tie.close ;;
    conflict) echo --observer low ;;
    hydraulic) echo --observer no_brakes --drop engine_pump.wear,electric_pump.wear ;;
    pumps) echo --observer dry --drop main_pump.start,standby_pump.stop ;;
    repair) echo --observer stopped ;;
    ring) echo --observer south_is_deaf --drop north.mend,east.mend,south.mend,west.mend ;;
    supply) echo --observer dark ;;
  esac
}

# usage TOOL: without words a helper says its use, on standard error, with status 2, and that it is not proved; --help says it
# on standard output, with status 0 or, where that takes nothing, 4.
usage() {
  local said helped status
  said=$("tools/$1" 2>&1 >/dev/null)
  status=$?
  helped=$("tools/$1" --help 2>&1)
  status+=" $?"
  "tools/$1" --help >/dev/full 2>/dev/null
  status+=" $?"
  equal "$1 says its use without words and with --help" '2 0 4 same' "$status $([ "$said" = "$helped" ] && echo same)"
  if grep -q "^$1 " <<<"$said" && grep -q '^Status: 0 ' <<<"$said" && grep -qi '^not proved' <<<"$said"; then
    passed "$1 says its statuses, and that it is not proved"
  else
    failed "$1 says its statuses, and that it is not proved" "$said"
  fi
  equal "$1 has a version" "$1 of altarica $(cat VERSION)" "$("tools/$1" --version 2>&1)"
  # The words of `why` are those of the program.
  [ "$1" = why ] || equal "$1 does not know --no-such-word" 2 "$("tools/$1" --no-such-word x y z >/dev/null 2>&1; echo $?)"
}

# The words of each command, from the table of docs/use/TEXTS.md, without the program's name: `check MODEL [--main B]`.
commands() {
  sed -n 's/^| `\(altarica \)\{0,1\}\(make N\|[a-z]* MODEL[^`]*\)` |.*/\2/p' docs/use/TEXTS.md
}
