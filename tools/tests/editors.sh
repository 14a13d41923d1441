#!/usr/bin/env bash
# The grammars of editors/: no token of an example is without a class, and each word and sign of the language has its
# own; the errorformat and the problem matcher read the first line of `why` and the lines of `lint`.
. "$(dirname "$0")/points.bash"

lexed=()
for model in examples/*.alt tests/*/*.alt; do
  "$ALTARICA" check "$model" | grep -q '^ok' && lexed+=("$model")
done
equal "the TextMate grammar gives each token of ${#lexed[@]} models its class" '' \
  "$(python3 tools/tests/token_classes.py textmate editors/vscode/syntaxes/altarica.tmLanguage.json "${lexed[@]}" 2>&1 | head -n 3)"
for file in editors/vscode/package.json editors/vscode/language-configuration.json editors/vscode/syntaxes/altarica.tmLanguage.json; do
  holds "$file is JSON" python3 -m json.tool "$file" /dev/null
done

equal "the extension of VS Code has the number of VERSION" "$(cat VERSION)" \
  "$(python3 -c 'import json; print(json.load(open("editors/vscode/package.json"))["version"])')"

tools/why check tests/mistakes/path.alt >"$work/refused"
tools/lint tests/lint/slips.alt >"$work/lint"
equal "the problem matcher reads the place and the text of a refusal and of lint" \
  'tests/mistakes/path.alt 12 13 rule L10: this path or name is nothing of the kind that is needed here|tests/lint/slips.alt 6 5 lint: state p.g never has the value WORN or DEAD: no event enters it' \
  "$(python3 - "$work/refused" "$work/lint" <<'PYTHON'
import json, re, sys
form = re.compile(json.load(open("editors/vscode/package.json"))["contributes"]["problemMatchers"][0]["pattern"]["regexp"])
found = [[" ".join(m.groups()) for m in map(form.match, open(f)) if m] for f in sys.argv[1:]]
assert len(found[0]) == 1 and len(found[1]) == 10, found
print("|".join(f[0] for f in found))
PYTHON
)"

if have vim && vim --version | grep -q '+syntax' && vim --version | grep -q '+eval'; then
  editor() { HOME=$work timeout 60 vim -es -u NONE -i NONE --cmd "set nocompatible runtimepath^=$top/editors/vim" "$@" </dev/null; }
  cat >"$work/classes.vim" <<'VIM'
filetype on
syntax on
let places = readfile($PLACES)
let said = []
for model in split($MODELS)
  execute 'edit' model
  for place in readfile($PLACES . '.' . fnamemodify(model, ':t'))
    let [line, column, kind] = split(place)
    let class = synIDattr(synID(line, column, 1), 'name')
    let want = {'name': 'altaricaName', 'whole': 'altaricaNumber', 'real': 'altaricaReal'}
    let right = has_key(want, kind) ? class ==# want[kind] : class !=# '' && class !~# 'Name\|Number\|Real\|Comment\|Division'
    if !right
      call add(said, model . ':' . line . ':' . column . ': ' . kind . ' has the class ' . class)
    endif
  endfor
endfor
call writefile(said, $SAID)
qall!
VIM
  : >"$work/places"
  for model in examples/*.alt tests/beside/*.alt; do
    python3 tools/tests/token_classes.py places "$model" >"$work/places.$(basename "$model")"
  done
  echo no >"$work/said"
  MODELS="$(echo examples/*.alt tests/beside/*.alt)" PLACES=$work/places SAID=$work/said editor -S "$work/classes.vim"
  equal "the syntax of vim gives each token of the examples its class" '' "$(head -n 3 "$work/said")"
  cat >"$work/errors.vim" <<'VIM'
compiler altarica
let said = []
for file in split($FILES)
  execute 'cgetfile' file
  let found = filter(getqflist(), 'v:val.valid')
  call add(said, len(found) . ' ' . bufname(found[0].bufnr) . ':' . found[0].lnum . ':' . found[0].col . ': ' . substitute(found[0].text, '\n.*', '', ''))
endfor
call writefile(said, $SAID)
qall!
VIM
  echo no >"$work/said"
  FILES="$work/refused $work/lint" SAID=$work/said editor -S "$work/errors.vim"
  equal "the errorformat of vim reads a refusal and the lines of lint" \
    '1 tests/mistakes/path.alt:12:13: rule L10: this path or name is nothing of the kind that is needed here|10 tests/lint/slips.alt:6:5: state p.g never has the value WORN or DEAD: no event enters it' \
    "$(paste -sd'|' "$work/said")"
else
  skipped "the syntax and the errorformat of vim" vim
fi
