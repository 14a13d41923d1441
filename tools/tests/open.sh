#!/usr/bin/env bash
# `open`: calls to its server, with and without the right to them, and its page in a browser.
. "$(dirname "$0")/points.bash"
usage open

said() { timeout 60 tools/open "$@" 2>&1 >/dev/null </dev/null; echo "status $?"; }
equal "a model that is refused" 'open: tests/mistakes/semi.alt: syntax: 3:3 (status 2) status 3' "$(said tests/mistakes/semi.alt | tail -n 2 | xargs)"
equal "an observer that is misspelt" 'open: there is no observer too_wek status 4' "$(said examples/brake.alt --observer too_wek | xargs)"
equal "no such model, and ports and words that are no use" '4 2 2 2 2' "$(for words in nosuch.alt 'examples/brake.alt --port 80' 'examples/brake.alt --port x' \
  'examples/brake.alt --idle 0' 'examples/brake.alt --value true'; do
    # shellcheck disable=SC2086
    timeout 60 tools/open $words >/dev/null 2>&1; echo $?; done | xargs)"
holds "it says where it is, on a port that is asked for" grep -qE '^http://127\.0\.0\.1:24731/[A-Za-z0-9_-]{43}/$' <(tools/open examples/ring.alt --port 24731 --idle 0.01 2>/dev/null)
equal "the script hands on to it" 0 "$(./altarica --open examples/ring.alt --idle 0.01 >/dev/null 2>&1; echo $?)"
equal "with its help, before anything is built" "open MODEL" "$(env -u ALTARICA ./altarica --open --help | head -n 1 | cut -c1-10)"
python3 tools/tests/open_calls.py
if have dot; then
  if have chromium; then python3 tools/tests/open_page.py; else skipped "the workbench in a browser" chromium; fi
else
  skipped "the picture of the workbench" graphviz
fi
