#!/usr/bin/env bash
# The pages: their examples, their words, their size and their links.
exec python3 tools/tests/pages.py "$@"
