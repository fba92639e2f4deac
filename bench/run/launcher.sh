#!/bin/bash
# What a launcher costs a run: N trivial jobs side by side, four at once, without a launcher, by `env`, and by `setpriv` where that is installed. Where Slurm
# answers, or is installed and can be started (tests/slurm/start), 1,000 of them by `srun`, 32 at once, beside `srun` in a loop of a shell with as many
# at once: a job for each, and a step for each in one allocation. Medians of 3, or of TIMES, their ratios, and the milliseconds that the launcher adds to a job.
# usage: launcher.sh [FOLDER]      a folder for the files, in memory without one; by a Slurm that answers all nodes have to see it
# Needs bash, python3 and rt. PROGRAM=PATH takes a program that is built already; SIZES names other numbers of jobs, SCHEDULED that of those by Slurm, 0 for
# none, and SLOTS how many of these are there at once.
set -euo pipefail
top=$(cd "$(dirname "$0")/../.." && pwd)
program=${PROGRAM:-$top/$("$top/scripts/build" 2>/dev/null)}
[ -x "$program" ] || { echo "there is no program: make says why"; exit 1; }
. "$top/bench/run/times.sh"
here=$(mktemp -d "${1:-/dev/shm}/deparohi-XXXXXX")
trap 'trap "" INT TERM HUP; [ ! -d "$here/slurm" ] || "$top/tests/slurm/stop" "$here/slurm"; rm -rf "$here"' EXIT
cd "$here"

# Writes the document and the inputs of $1 jobs, and the text that their files have together.
written() {
    python3 - "$1" <<'END'
import json, sys
n = int(sys.argv[1])
write = {"class": "CommandLineTool", "baseCommand": "printf", "stdout": "$(inputs.t)", "outputs": {"o": "stdout"}}
write["inputs"] = {"t": {"type": "string", "inputBinding": {}}}
document = {"cwlVersion": "v1.2", "class": "Workflow", "requirements": {"ScatterFeatureRequirement": {}}, "inputs": {"ts": "string[]"}}
document["steps"] = {"write": {"run": write, "in": {"t": "ts"}, "out": ["o"], "scatter": "t"}}
document["outputs"] = {"written": {"type": "File[]", "outputSource": "write/o"}}
with open("launcher.json", "w") as it:
    json.dump(document, it)
names = [f"x{at:06}" for at in range(n)]
with open("launcher.inputs", "w") as it:
    json.dump({"ts": names}, it)
with open("expected", "w") as it:
    it.write("".join(names))
END
}

ours() { "$program" run --slots "$slots" --outdir made "$@" launcher.json launcher.inputs; }
looped() { seq -f 'x%06g' 0 $((n - 1)) | xargs -P "$slots" -I % sh -c './launch printf % > made/%'; }
compared() { cat made/x* | cmp expected - || { echo "the files are not what they have to be"; exit 1; }; }
fresh='rm -rf made && mkdir made'

# Measures a run of $n jobs by the launcher $1, and puts its time beside that without one, which is $bare.
launched() {
    local run
    run=$(median "$fresh" ours --launcher "$1")
    compared
    echo "    $1: $(millis "$run") ms, ratio $(ratio "$run" "$bare"), $(millis $(((run - bare) / n))) ms a job"
}

# Measures a run and a loop of $n jobs by `srun` with the options $2, which are called $1.
scheduled() {
    local loop run
    printf '#!/bin/sh\nexport SLURM_CONF=%s\nexec srun -Q -n1 %s "$@"\n' "${SLURM_CONF-}" "$2" > launch
    [ -n "${SLURM_CONF-}" ] || sed -i '/SLURM_CONF/d' launch
    chmod +x launch
    loop=$(median "$fresh" looped)
    compared
    run=$(median "$fresh" ours --launcher "$here/launch")
    compared
    echo "$n $1, $slots at once: $(millis "$run") ms; a loop of a shell $(millis "$loop") ms, ratio $(ratio "$run" "$loop"): $(goal "$run" "$loop" 1.1)"
}

slots=4
for n in ${SIZES:-1000}; do
    written "$n"
    bare=$(median "$fresh" ours)
    compared
    echo "$n jobs without a launcher: $(millis "$bare") ms"
    launched env
    ! command -v setpriv >/dev/null || launched 'setpriv --pdeathsig KILL'
done

n=${SCHEDULED-1000} slots=${SLOTS-32}
[ "$n" != 0 ] || exit 0
if ! sinfo >/dev/null 2>&1; then
    why=$("$top/tests/slurm/start" "$here/slurm" 2>&1) || { echo "by Slurm: passed over, none answers, and it can't be started: $why"; exit 0; }
    export SLURM_CONF=$here/slurm/slurm.conf DEPAROHI_SLURM=$here/slurm
fi
written "$n"
scheduled "jobs by srun" ''
salloc -Q --no-shell -n "$slots" -J deparohi-bench
scheduled "steps of one allocation" "--jobid=$(squeue -h -n deparohi-bench -o %i | head -n 1) --exact"
scancel -n deparohi-bench
