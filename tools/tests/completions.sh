#!/usr/bin/env bash
# The completions of bash and zsh offer the commands, the options of each, and the observers and events of the model.
. "$(dirname "$0")/points.bash"

offers() {
  COMP_WORDS=("$@") COMP_CWORD=$(($# - 1)) COMPREPLY=()
  _altarica 2>/dev/null
  printf '%s\n' "${COMPREPLY[@]}" | LC_ALL=C sort | paste -sd' '
}
. completions/altarica.bash
equal "bash offers the commands" 'check checkcuts cuts' "$(offers altarica c)"
equal "bash offers the options of a command" '--drop --main --max-order --nodes --observer --value' "$(offers altarica cuts examples/brake.alt --)"
equal "bash offers --max-order for lists of cuts alone" '--max-order  --max-order' \
  "$(offers altarica checkcuts x y --max) $(offers altarica modules x --max) $(offers altarica cuts x --max)"
equal "bash finds the model behind --max-order" 'too_weak wheels' "$(offers altarica cuts --max-order 2 examples/brake.alt --observer '')"
equal "bash offers no other options" '--main' "$(offers altarica check examples/brake.alt --)"
equal "bash offers the observers of the model" 'too_weak wheels' "$(offers altarica cuts examples/brake.alt --observer '')"
equal "bash offers them behind =" 'wheels' "$(offers altarica cuts examples/brake.alt --observer = w)"
equal "bash finds the model behind a value with =" 'too_weak wheels' "$(offers altarica cuts --main = Brake examples/brake.alt --observer '')"
equal "and where the words are not split at =" 'too_weak wheels' "$(offers altarica cuts --main=Brake examples/brake.alt --observer '')"
equal "what is typed behind = is offered with its option where the words are not split" '--observer=too_weak --observer=wheels' \
  "$(offers altarica cuts examples/brake.alt --observer=)"
equal "also of several events" '--drop=left_feeder.close,tie.close --drop=left_feeder.close,tie.open' \
  "$(offers altarica cuts examples/bus.alt --drop=left_feeder.close,tie.)"
equal "bash offers the events of the model" 'tie.close tie.open' "$(offers altarica cuts examples/bus.alt --drop tie)"
equal "bash offers further events behind a comma" 'left_feeder.close,tie.close left_feeder.close,tie.open' "$(offers altarica cuts examples/bus.alt --drop left_feeder.close,tie.)"
equal "bash offers the files" 'examples/bus.alt examples/bus.cuts examples/bus.script examples/bus.trace' "$(offers altarica replay examples/bus)"
known=$(commands | cut -d' ' -f1 | LC_ALL=C sort | paste -sd' ')
equal "TEXTS has ten commands" 10 "$(wc -w <<<"$known")"
equal "bash offers each command of TEXTS" "$known" "$(offers altarica '')"
equal "bash offers the first words of the script" '--explain --help --open --unproved --version --why' "$(offers altarica --)"
equal "bash offers the commands behind them" 'check checkcuts cuts' "$(offers altarica --unproved --why c)"
equal "bash finds the model behind them" 'too_weak wheels' "$(offers altarica --why cuts examples/brake.alt --observer '')"
equal "bash finds the model behind --open" 'too_weak wheels' "$(offers altarica --open examples/brake.alt --observer '')"
equal "bash offers the options of --open" '--browser --drop --idle --main --nodes --observer --port --value' "$(offers altarica --open examples/brake.alt --)"
equal "bash finds the model behind an option" 'too_weak wheels' "$(offers altarica cuts --nodes 5 examples/brake.alt --observer '')"
printf '// block no\nclass C block inner Boolean s (init = true); end end\nblock One\n  C c;\n  block within Boolean s (init = true); end\nend\nblock Two C c; end\n' >"$work/blocks.alt"
equal "bash offers the blocks for --main that may be one" 'One Two' "$(offers altarica check "$work/blocks.alt" --main '')"
mkdir "$work/here"
cd "$work/here" || exit 1
cp "$top/examples/brake.alt" "$work/two words.alt"
# shellcheck disable=SC2016
for typed in '$(touch${IFS}ran)' '`touch ran`' '"$(touch ran)"' ';touch ran' '$((ran=1))'; do
  offers altarica cuts "$typed" --observer '' >/dev/null
  offers altarica cuts x --observer "$typed" >/dev/null
  offers altarica check "$typed" >/dev/null
done
equal "bash runs nothing of what is typed" '' "$(ls)"
for typed in "$work/two\\ words.alt" "'$work/two words.alt'" "\"$work/two words.alt\""; do
  equal "bash reads a name with quotes: $typed" 'too_weak wheels' "$(offers altarica cuts "$typed" --observer '')"
done
equal "bash offers a file with a blank in its name" "$work/two words.alt" "$(offers altarica cuts "$work/two")"
# A program of the folder one is in is not the one of the path; ALTARICA that names no program takes no other one.
mkdir -p out "$work/bin"
printf '#!/bin/sh\ntouch "%s/ran"\n' "$work" >out/altarica
cp out/altarica altarica
chmod +x out/altarica altarica
printf '#!/bin/sh\n' >"$work/bin/altarica"
chmod +x "$work/bin/altarica"
(unset ALTARICA; PATH=$work/bin:$PATH offers altarica cuts ../"two words.alt" --observer '') >/dev/null
equal "bash runs no program of the folder one is in" '' "$(ls "$work/ran" 2>/dev/null)"
equal "bash takes no other program where ALTARICA names none" '' "$(ALTARICA=nosuch offers altarica cuts "$top/examples/brake.alt" --observer '')"
mkdir -p "$work/repo/out"
printf '#!/bin/sh\ntouch "%s/ran"\n' "$work" >"$work/repo/altarica"
chmod +x "$work/repo/altarica"
ALTARICA=$work/repo/altarica offers altarica cuts "$top/examples/brake.alt" --observer '' >/dev/null
equal "bash does not start the script where ALTARICA names it" '' "$(ls "$work/ran" 2>/dev/null)"
cp "$work/repo/altarica" "$work/script"
cp "$top/altarica" "$work/repo/altarica"
cp "$ALTARICA" "$work/repo/out/unproved"
: >"$work/repo/out/unproved.loader"
ln -sf "$work/repo/altarica" "$work/bin/altarica"
equal "bash asks the program that --unproved has compiled" 'too_weak wheels' \
  "$(unset ALTARICA; PATH=$work/bin:$PATH offers altarica cuts "$top/examples/brake.alt" --observer '')"
equal "also where the script is named by its path" 'too_weak wheels' \
  "$(unset ALTARICA; offers ../repo/altarica cuts "$top/examples/brake.alt" --observer '')"
cd "$top" || exit 1
if have zsh; then
  holds "the completion of zsh is a function that zsh can read" zsh -n completions/_altarica
  equal "zsh has --max-order for cuts and checkcuts alone" 'checkcuts cuts' \
    "$(sed -n 's/^    \([a-z|]*\)) _arguments .*\$order.*/\1/p' completions/_altarica | LC_ALL=C sort | paste -sd' ')"
  equal "zsh knows each command" "$known" "$(sed -n "s/^    '\([a-z]*\):.*/\1/p" completions/_altarica | LC_ALL=C sort | paste -sd' ')"
  asks() {
    zsh -f -c '
      functions_of=$(sed "/^_altarica \"\\\$@\"/d" completions/_altarica)
      eval "$functions_of"
      compadd() { print -r -- ${(P)2} }
      words=(altarica cuts "$2") line=(cuts "$2")
      $1' zsh "$@" 2>&1
  }
  equal "zsh finds the observers of the model" 'too_weak wheels' "$(asks _altarica_observers examples/brake.alt)"
  equal "zsh reads a name with quotes" 'too_weak wheels' "$(asks _altarica_observers "'$work/two words.alt'")"
  equal "zsh offers the blocks for --main that may be one" 'One Two' "$(asks _altarica_blocks "$work/blocks.alt")"
  equal "zsh takes no other program where ALTARICA names none" '' "$(ALTARICA=nosuch asks _altarica_observers examples/brake.alt)"
  ALTARICA=$work/script asks _altarica_observers examples/brake.alt >/dev/null
  equal "zsh does not start the script where ALTARICA names it" '' "$(ls "$work/ran" 2>/dev/null)"
  equal "zsh asks the program that --unproved has compiled" 'too_weak wheels' \
    "$(unset ALTARICA; PATH=$work/bin:$PATH asks _altarica_observers examples/brake.alt)"
  # shellcheck disable=SC2016
  asks _altarica_observers '$(touch ran)' >/dev/null
  equal "zsh runs nothing of what is typed" '' "$(ls ran 2>/dev/null)"
else
  skipped "the completion of zsh" zsh
fi
