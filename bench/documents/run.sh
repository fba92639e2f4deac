#!/bin/bash
# How long the program takes to read documents of 0.25, 0.5, 1 and 2 MB of some forty kinds, and input objects, without running anything: by how much the
# time grows for twice the bytes (2.0 is linear, 2.4 the most that is wanted), and how long Python's json takes to read the same file.
# documents.py says how it is measured. Needs bash, python3 and rt. PROGRAM=PATH takes a program that is built already; the words that are given pick
# the kinds that have one of them in their names, as `run.sh default: inputs:`. MEGABYTES takes other sizes: of `MEGABYTES="2 4 8 16" run.sh "not needed"`
# the largest is a packed document of 16 MB (one of more than 4,095 steps is refused, so "items: a step each" ends at 2 MB).
set -euo pipefail
top=$(cd "$(dirname "$0")/../.." && pwd)
program=${PROGRAM:-$top/$("$top/scripts/build" 2>/dev/null)}
[ -x "$program" ] || { echo "there is no program: make says why"; exit 1; }
python3 "$top/bench/documents/documents.py" "$program" "$@"
