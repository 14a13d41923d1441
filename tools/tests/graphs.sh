#!/usr/bin/env bash
# Graphs of classes and blocks that stand in each other, extend each other and have instances of each other: L3 is said of
# those in which a body contains itself, and of no other, at the first name of a type from which its body is reached again.
. "$(dirname "$0")/points.bash"
python3 tools/tests/graphs.py "$work"
