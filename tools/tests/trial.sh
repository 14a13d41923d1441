#!/usr/bin/env bash
# Typical mistakes in the three models of tests/trial: each gets its line, and the section on it says how to mend it.
exec python3 tools/tests/trial.py
