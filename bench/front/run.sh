#!/bin/bash
# What the command `deparohi` costs beside the proved program, in milliseconds of processors, so that other work counts little: of a JSON tool, what the
# front adds; of the same tool in YAML, how many times as much as python3's own start the whole run takes, import and program together, and
# the import alone. Medians of ROUNDS rounds, each of which does all of them in turn. It ends with 1 if a JSON tool costs more than 1.5 ms more, or a YAML one more than 4 times python3's start.
# Needs bash, python3 with a YAML library, and rt or PROGRAM=PATH, which takes a program that is built already. ROUNDS=30.
set -euo pipefail
top=$(cd "$(dirname "$0")/../.." && pwd)
program=${PROGRAM:-$top/$("$top/scripts/build" 2>/dev/null)}
[ -x "$program" ] || { echo "there is no program: make says why"; exit 1; }
room=$(mktemp -d)
trap 'rm -rf "$room"' EXIT
# As it is installed, with its bytecode.
"$top/scripts/install" --of "$program" "$room" > /dev/null
python3 -B "$top/bench/front/front.py" "$room" "${ROUNDS:-30}"
