# Completion of `altarica` for bash: commands, options, and from the model its main blocks, observers, values and events.
# Not proved. Source this file. The program is asked for `flat`, and the script `altarica`, which may build first, is not
# started: set ALTARICA, or have a program `altarica` on the path, or out/altarica or out/unproved beside the script.
# What was typed is read as text: nothing of it is run.

# Prints the folder of the script that a first word of a command line calls, if it is one.
_altarica_top() {
  local script
  script=$(type -P -- "$1" 2>/dev/null) && script=$(readlink -f -- "$script") || return
  if [ "$(head -c 2 -- "$script" 2>/dev/null | tr -d '\0')" = '#!' ]; then printf '%s\n' "${script%/*}"; fi
}

# Sets `asked`, the words that call the program, for a first word of a command line.
_altarica_program() {
  local name=${ALTARICA:-$1} found top
  asked=()
  found=$(type -P -- "$name" 2>/dev/null) || return
  top=$(_altarica_top "$name")
  if [ -z "$top" ]; then asked=("$found"); return; fi
  for found in "$top/out/altarica" "$top/crates/altarica_main/out/altarica_main"; do
    if [ -f "$found" ] && [ -x "$found" ]; then asked=("$found"); return; fi
  done
  found=$top/out/unproved
  if [ -f "$found" ] && [ -x "$found" ]; then
    [ ! -f "$found.loader" ] || mapfile -d '' -t asked <"$found.loader"
    asked=(env -i "${asked[@]}" "$found")
  fi
}

# The observers, the events or the values of a model: _altarica_names MODEL WHAT, asked of the program.
_altarica_names() {
  "${asked[@]}" flat -- "$1" 2>/dev/null | awk -v what="$2" '
    what == "observers" && $1 == "observer" { print $2 }
    what == "events" && ($1 == "way" || $1 == "hidden") { label = $1 == "way" ? $2 : $3; sub(/#.*/, "", label); if (!(label in seen)) print label; seen[label] }
    what == "values" && ($1 == "state" || $1 == "flow") && match($0, /\{[^}]*\}/) { n = split(substr($0, RSTART + 1, RLENGTH - 2), v, ", "); for (i = 1; i <= n; i++) if (!(v[i] in seen)) { print v[i]; seen[v[i]] } }
    END { if (what == "values") print "true\nfalse" }'
}

# The blocks of a model that are in no other unit.
_altarica_blocks() {
  sed 's|//.*||' <"$1" 2>/dev/null | tr -c 'A-Za-z0-9_' '\n' | awk '
    named { if (named == "block" && depth == 1) print; if ($0 != "") named = "" }
    !named && ($0 == "block" || $0 == "class") { named = $0; depth++ }
    $0 == "end" { depth-- }'
}

# A word of the command line without its quotes; `~/` is the home folder. Nothing in it is expanded.
_altarica_plain() {
  local word=$1 plain='' sign quote=''
  # shellcheck disable=SC2088
  [ "${word:0:2}" != '~/' ] || plain=$HOME/ word=${word:2}
  while [ -n "$word" ]; do
    sign=${word:0:1} word=${word:1}
    case $quote$sign in
      "''" | '""') quote='' ;;
      \' | \") quote=$sign ;;
      \\ | '"\') plain+=${word:0:1} word=${word:1} ;;
      *) plain+=$sign ;;
    esac
  done
  printf '%s\n' "$plain"
}

# Sets `model`, the second word that is no option, among the words from the command on.
_altarica_model() {
  local word place=0 skip=''
  model=''
  for word in "${COMP_WORDS[@]:first:COMP_CWORD-first}"; do
    # A value is the next word; where Bash splits at `=`, that is a word between the two.
    if [ "$word" = = ]; then skip=yes; continue; fi
    if [ -n "$skip" ]; then skip=''; continue; fi
    case $word in
      --main | --observer | --value | --drop | --nodes | --max-order | --port | --idle) skip=yes ;;
      --open) place=$((place + 1)) ;;
      -*) ;;
      *) place=$((place + 1)); if [ $place -eq 2 ]; then model=$(_altarica_plain "$word"); return; fi ;;
    esac
  done
}

# Offers those of some lines that begin with a word; each with a text before it.
_altarica_offer() {
  local line
  while IFS= read -r line; do
    [[ -z $line || $line != "$1"* ]] || COMPREPLY+=("$joined${2-}$line")
  done
}

# Offers the values of an option.
_altarica_values() {
  local asked model before=$1 word=$2 list=''
  _altarica_program "${COMP_WORDS[0]}"
  _altarica_model
  [ -f "$model" ] || return
  if [ "$before" = --main ]; then _altarica_offer "$word" < <(_altarica_blocks "$model" | sort -u); return; fi
  [ ${#asked[@]} -gt 0 ] || return
  case $before in
    --observer) _altarica_offer "$word" < <(_altarica_names "$model" observers) ;;
    --value) _altarica_offer "$word" < <(_altarica_names "$model" values) ;;
    --drop)
      case $word in *,*) list=${word%,*}, ;; esac
      _altarica_offer "${word##*,}" "$list" < <(_altarica_names "$model" events)
      compopt -o nospace 2>/dev/null ;;
  esac
}

# The options of a command, one a line.
_altarica_options() {
  case $1 in
    check | flat | replay) echo --main ;;
    explain) printf '%s\n' --observer --main ;;
    fragment) printf '%s\n' --drop --main ;;
    equations) printf '%s\n' --observer --value --drop --main ;;
    --open) printf '%s\n' --observer --value --nodes --drop --main --browser --port --idle ;;
    modules) printf '%s\n' --observer --value --nodes --drop --main ;;
    cuts | checkcuts) printf '%s\n' --observer --value --nodes --max-order --drop --main ;;
  esac
}

_altarica() {
  local word=${COMP_WORDS[COMP_CWORD]} before=${COMP_WORDS[COMP_CWORD - 1]} first=1 command joined=''
  COMPREPLY=()
  if [ "$word" = = ]; then word=''; elif [ "$before" = = ]; then before=${COMP_WORDS[COMP_CWORD - 2]}; fi
  # Where Bash does not split at `=`, what is offered begins with the option.
  case $word in --main=* | --observer=* | --drop=* | --value=*) before=${word%%=*} joined=${word%%=*}= word=${word#*=} ;; esac
  while [ "$first" -lt "$COMP_CWORD" ] && [[ ${COMP_WORDS[first]} == --unproved || ${COMP_WORDS[first]} == --why ]]; do
    first=$((first + 1))
  done
  command=${COMP_WORDS[first]-}
  if [ "$COMP_CWORD" -eq "$first" ]; then
    if [[ $word == -* ]]; then
      _altarica_offer "$word" < <(printf '%s\n' --unproved --why --open --explain --help --version)
    else
      _altarica_offer "$word" < <(printf '%s\n' check flat replay fragment equations cuts checkcuts modules explain make)
    fi
    return
  fi
  case $before in
    --main | --observer | --drop | --value) _altarica_values "$before" "$word"; return ;;
    --nodes | --max-order | --port | --idle) return ;;
  esac
  case $word in
    -*) _altarica_offer "$word" < <(_altarica_options "$command") ;;
    *) mapfile -t COMPREPLY < <(compgen -f -- "$word"); compopt -o filenames 2>/dev/null ;;
  esac
}
complete -F _altarica altarica
