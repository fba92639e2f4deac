#!/bin/bash
# How long the machine of a run takes for each job, by itself: no processes and no files, each request is answered at once. The unfolding of the
# jobs is shown apart, as it is where each job's outputs are learned as soon as it is known; so is the peak memory. Beside it, as a measure of the
# computer, how long Python takes to read the same document and inputs. Needs bash, python3 and rt. PROGRAM=PATH takes a program that is built.
set -euo pipefail
here=$(cd "$(dirname "$0")" && pwd)
if [ -z "${PROGRAM-}" ]; then
    top=$(cd "$here/../.." && pwd)
    PROGRAM=$("$top/scripts/build" test_runs)
    PROGRAM=$top/$PROGRAM
fi
python3 "$here/machine.py" "$PROGRAM" "$@"
