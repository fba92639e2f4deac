#!/bin/bash
# All that is tried on the program so that it answers wrongly, or is left with nothing: what each script tries, and what has to come out, stands in it.
#   archives.py   an archive that was altered behind a run's back
#   stops.py      what is left of a run that is stopped by `kill -9` at a random moment
#   making.py     what is left of a record whose making is stopped at each of its writes
#   budget.py     what a cache with a budget holds after runs, and after runs that are killed
#   signals.py    what is left of a run that is ended by another signal, and the words that lead on
#   others.py     others at the files of a run: bytes that change, rights, halves
#   full.py       disks that are full
#   memory.py     each request for memory of a run, refused
#   mutants.py    documents, inputs, certificates and records that were altered at random
#   imports.py    documents and inputs that were altered at random, imported
# SEED (1), STOPS (200), RUNS (200), MUTANTS (100,000) and IMPORTS (3,000) name other numbers; ONLY="signals full" names the scripts that are run. The status is 1 where something is not as it has to be.
# Needs bash, python3, sqlite3, cc and rt, strace for stops at calls, and unshare for small disks. PROGRAM=PATH takes a program that is built already.
set -euo pipefail
top=$(cd "$(dirname "$0")/../.." && pwd)
program=${PROGRAM:-$top/$("$top/scripts/build" 2>/dev/null)}
[ -x "$program" ] || { echo "there is no program: make says why"; exit 1; }
command -v sqlite3 >/dev/null || { echo "sqlite3 is not here"; exit 1; }
seed=${SEED:-1} status=0
tried() {
    [[ " ${ONLY:-$1} " == *" $1 "* ]] || return 0
    echo "== $1"
    python3 "$top/bench/attack/$1.py" "$program" "${@:2}" || status=1
}
tried archives "$seed"
tried stops "${STOPS:-200}" "$seed"
tried making
tried budget "${RUNS:-200}" "$seed"
tried signals
tried others
tried full
tried memory
tried mutants "${MUTANTS:-100000}" "$seed"
tried imports "${IMPORTS:-3000}" "$seed"
exit "$status"
