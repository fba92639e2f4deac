#!/bin/bash
# What files on a disk cost a run: N trivial jobs side by side, four at once, and one that joins what they made, on a disk and in memory, each beside
# `make -j4`, and beside `ninja -j4` where that is installed, for the same commands. Medians of 5, or of TIMES, and their ratios. The files of the jobs
# have a name each, and then one name, so that each stands in a folder of its own where they are joined.
# usage: disk.sh [FOLDER]      the folder on the disk; without one /var/tmp, if that is on ext4
# Needs bash, python3, make and rt, and /dev/shm for files in memory. PROGRAM=PATH takes a program that is built already; SIZES names other numbers of jobs.
set -euo pipefail
top=$(cd "$(dirname "$0")/../.." && pwd)
program=${PROGRAM:-$top/$("$top/scripts/build" 2>/dev/null)}
[ -x "$program" ] || { echo "there is no program: make says why"; exit 1; }
. "$top/bench/run/times.sh"
TIMES=${TIMES:-5}
kind() { df --output=fstype "$1" | tail -n 1; }
disk=${1:-/var/tmp}
[ $# -gt 0 ] || [ "$(kind "$disk")" = ext4 ] || { echo "$disk is not on ext4: name a folder on a disk"; exit 1; }
there=()
trap 'rm -rf "${there[@]}"' EXIT

# Writes the document, its inputs, the makefile and the build file of $1 jobs, whose files have a name each or, with $2, one name.
written() {
    python3 - "$1" "$2" <<'END'
import json, sys
n, name = int(sys.argv[1]), "o" if sys.argv[2] == "one" else "$(inputs.t)"
write = {"class": "CommandLineTool", "baseCommand": "printf", "stdout": name, "outputs": {"o": "stdout"}}
write["inputs"] = {"t": {"type": "string", "inputBinding": {}}}
join = {"class": "CommandLineTool", "baseCommand": "cat", "stdout": "joined", "outputs": {"o": "stdout"}}
join["inputs"] = {"f": {"type": "File[]", "inputBinding": {}}}
steps = {"write": {"run": write, "in": {"t": "ts"}, "out": ["o"], "scatter": "t"}, "join": {"run": join, "in": {"f": "write/o"}, "out": ["o"]}}
document = {"cwlVersion": "v1.2", "class": "Workflow", "requirements": {"ScatterFeatureRequirement": {}}, "inputs": {"ts": "string[]"}}
document.update(outputs={"joined": {"type": "File", "outputSource": "join/o"}}, steps=steps)
with open("disk.json", "w") as it:
    json.dump(document, it)
with open("disk.inputs", "w") as it:
    json.dump({"ts": [f"x{at}" for at in range(n)]}, it)
made = [(f"made/x{at}", f"printf x{at}") for at in range(n)]
everything = " ".join(to for to, _ in made)
with open("disk.mk", "w") as it:
    print(f"made/joined: {everything}\n\t@cat $^ >$@", file=it)
    for to, command in made:
        print(f"{to}:\n\t@{command} >$@", file=it)
with open("disk.ninja", "w") as it:
    print("rule run\n  command = $c >$out\nrule join\n  command = cat $in >$out", file=it)
    print(f"build made/joined: join {everything}", file=it)
    for to, command in made:
        print(f"build {to}: run\n  c = {command}", file=it)
with open("expected", "w") as it:
    it.write("".join(f"x{at}" for at in range(n)))
END
}

ours() { "$program" run --slots 4 --outdir made disk.json disk.inputs; }
compared() { cmp expected made/joined || { echo "made/joined is not what it has to be"; exit 1; }; }

# Measures the words behind the name $1, and puts how long they take beside the run, which takes $run.
beside() {
    local name=$1
    shift
    peer=$(median "$fresh" "$@")
    compared
    line="$line; $name $(millis "$peer") ms, ratio $(ratio "$run" "$peer")"
}

fresh='rm -rf made .ninja_log .ninja_deps && mkdir made'
for place in "$disk" /dev/shm; do
    here=$(mktemp -d "$place/deparohi-XXXXXX")
    there+=("$here")
    cd "$here"
    most=3
    [ "$(kind .)" != tmpfs ] || most=1.2
    for n in ${SIZES:-1000}; do
        for names in each one; do
            written "$n" "$names"
            run=$(median "$fresh" ours)
            compared
            line="$(kind .), $n jobs"
            [ "$names" = each ] || line="$line, whose files have one name"
            line="$line: $(millis "$run") ms"
            beside 'make -j4' make -s -j4 -f disk.mk made/joined
            reached=$(goal "$run" "$peer" "$most")
            ! command -v ninja >/dev/null || beside 'ninja -j4' ninja --quiet -j4 -f disk.ninja
            echo "$line: beside make $reached"
        done
    done
done
