#!/usr/bin/env bash
# Where a package is not there, the tests that need it are skipped, each with the name of the package.
. "$(dirname "$0")/points.bash"

# A path with what is on it now, but for these commands.
mkdir "$work/bin"
IFS=: read -ra folders <<<"$PATH"
for folder in "${folders[@]}"; do
  for file in "$folder"/*; do
    case ${file##*/} in
      dot | chromium | zsh | scram | shellcheck | pyflakes3 | xmllint | groff | vim) ;;
      *) [ ! -x "$file" ] || [ -e "$work/bin/${file##*/}" ] || ln -s "$file" "$work/bin/${file##*/}" ;;
    esac
  done
done
for test in completions:zsh scram:scram style:shellcheck style:pyflakes3 manual:groff; do
  equal "without ${test#*:} the test of ${test%:*} skips what needs it" 1 \
    "$(PATH=$work/bin "tools/tests/${test%:*}.sh" 2>/dev/null | grep -c "^skipped: .*apt-get install ${test#*:})$")"
done
