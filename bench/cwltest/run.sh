#!/bin/bash
# Runs a folder of cases by cwltest, the Common Workflow Language's own test runner: `cwltest --tool deparohi -- run`. Where it is not installed (Debian 12 has no package of
# it) the same words are given to the program by cases.py, which compares as cwltest does, and says so. CASES=DIR names the folder, with a case.json in each case's own;
# PROGRAM=PATH takes a program that is built already. Needs bash, python3 and rt.
set -euo pipefail
top=$(cd "$(dirname "$0")/../.." && pwd)
[ -d "${CASES-}" ] || { echo "which cases? CASES=DIR bench/cwltest/run.sh" >&2; exit 2; }
cases=$(realpath "$CASES")
program=${PROGRAM:-$top/$("$top/scripts/build" 2>/dev/null)}
[ -x "$program" ] || { echo "there is no program: make says why" >&2; exit 1; }
here=$(mktemp -d)
trap 'rm -rf "$here"' EXIT
cd "$here"
if command -v cwltest >/dev/null; then
    python3 "$top/bench/cwltest/cases.py" "$cases" tests tests.json
    cwltest --test tests.json --tool "$(realpath "$program")" -j 1 -- run
else
    echo "cwltest is not installed here: its words are given to the program by cases.py" >&2
    python3 "$top/bench/cwltest/cases.py" "$cases" run "$(realpath "$program")" run
fi
