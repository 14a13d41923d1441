#!/usr/bin/env bash
# What the pages name of the sources: crates, files, functions, definitions, edits.
exec python3 tools/tests/map.py "$@"
