#!/usr/bin/env bash
# What shellcheck says of the scripts in Bash, from warnings on, and pyflakes of the helpers in Python.
. "$(dirname "$0")/points.bash"

bash_files=() python_files=(tools/lib/*.py tools/lib/*/*.py tools/tests/*.py tools/*.py)
for file in altarica tools/* tools/tests/*.sh tools/tests/*.bash tests/ci/* completions/altarica.bash; do
  [ -f "$file" ] || continue
  case $file:$(head -n 1 "$file") in
    *.bash:* | *:'#!/usr/bin/env bash') bash_files+=("$file") ;;
    *:'#!/usr/bin/env python3') python_files+=("$file") ;;
  esac
done
existing=()
for file in "${python_files[@]}"; do [ ! -f "$file" ] || existing+=("$file"); done

if have shellcheck; then
  for file in "${bash_files[@]}"; do
    equal "shellcheck has nothing to say of $file" '' "$(shellcheck -x -P SCRIPTDIR -S warning -f gcc "$file" 2>&1)"
  done
else
  skipped "what shellcheck says of the scripts" shellcheck
fi
if have pyflakes3; then
  for file in "${existing[@]}"; do
    equal "pyflakes has nothing to say of $file" '' "$(pyflakes3 "$file" 2>&1)"
  done
else
  skipped "what pyflakes says of the helpers" pyflakes3
fi
