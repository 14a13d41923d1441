#!/usr/bin/env bash
# The table of docs/use/FROM_ALTARICA.md: each form is in its model of tests/literature, which gets the line of the table, and
# what is written in its place is in the mended model, which is accepted. Each model of the literature is in the table.
exec python3 tools/tests/literature.py
