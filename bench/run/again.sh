#!/bin/bash
# What a second run costs if nothing has changed: N jobs that each copy a file of 1 kB and one that joins the copies, over a cache that has them all. It delivers
# the joined file, and then each copy too, into a folder that has them already and into an empty one, on a disk and in memory (`--prefer-kept`: a copy that
# took a millisecond would be made again): each beside `make` and
# `ninja` with nothing to do, and cwltool's `--cachedir` where that is installed. Medians of 5, or of TIMES, and their ratios.
# usage: again.sh [FOLDER]      the folder on the disk; without one /var/tmp, if that is on ext4
# Needs bash, python3, make and rt, and /dev/shm for files in memory. PROGRAM=PATH takes a program that is built already; SIZES names other numbers of jobs.
set -euo pipefail
top=$(cd "$(dirname "$0")/../.." && pwd)
program=${PROGRAM:-$top/$("$top/scripts/build" 2>/dev/null)}
[ -x "$program" ] || { echo "there is no program: make says why"; exit 1; }
. "$top/bench/run/times.sh"
TIMES=${TIMES:-5}
kind() { df --output=fstype "$1" | tail -n 1; }
disk=${1:-/var/tmp}
[ $# -gt 0 ] || [ "$(kind "$disk")" = ext4 ] || { echo "$disk is not on ext4: name a folder on a disk"; exit 1; }
there=()
trap 'rm -rf "${there[@]}"' EXIT

# Writes $1 files, the document that copies and joins them and delivers the joined one or, with $2, each, its inputs, the makefile and the build file.
written() {
    rm -rf given && mkdir given
    python3 - "$1" "$2" <<'END'
import json, sys
n, each = int(sys.argv[1]), sys.argv[2] == "each"
copy = {"class": "CommandLineTool", "baseCommand": "cat", "stdout": "$(inputs.f.basename)", "outputs": {"o": "stdout"}}
copy["inputs"] = {"f": {"type": "File", "inputBinding": {}}}
join = {**copy, "stdout": "joined", "inputs": {"f": {"type": "File[]", "inputBinding": {}}}}
steps = {"copy": {"run": copy, "in": {"f": "files"}, "out": ["o"], "scatter": "f"}, "join": {"run": join, "in": {"f": "copy/o"}, "out": ["o"]}}
document = {"cwlVersion": "v1.2", "class": "Workflow", "requirements": {"ScatterFeatureRequirement": {}}, "inputs": {"files": "File[]"}}
document.update(outputs={"joined": {"type": "File", "outputSource": "join/o"}}, steps=steps)
if each:
    document["outputs"]["copies"] = {"type": "File[]", "outputSource": "copy/o"}
names = [f"x{at:06}" for at in range(n)]
for name in names:
    with open(f"given/{name}", "w") as it:
        it.write(f"{name}\n" * 128)
with open("again.json", "w") as it:
    json.dump(document, it)
with open("again.inputs", "w") as it:
    json.dump({"files": [{"class": "File", "location": f"given/{name}"} for name in names]}, it)
everything = " ".join(f"made/{name}" for name in names)
with open("again.mk", "w") as it:
    print(f"made/joined: {everything}\n\t@cat $^ >$@\nmade/%: given/%\n\t@cat $< >$@", file=it)
with open("again.ninja", "w") as it:
    print("rule copy\n  command = cat $in >$out", file=it)
    print(f"build made/joined: copy {everything}", file=it)
    for name in names:
        print(f"build made/{name}: copy given/{name}", file=it)
END
}

ours() { "$program" run --slots 4 --prefer-kept --cache kept --outdir out again.json again.inputs; }
cached() { cwltool --quiet --parallel --cachedir cache --outdir cached again.json again.inputs 2>/dev/null; }
compared() { cat given/x* | cmp - "$1/joined" || { echo "$1/joined is not what it has to be"; exit 1; }; }

# Compares the copies too, if each is delivered.
delivered() {
    compared "$1"
    [ "$2" = joined ] || diff -r --exclude=joined given "$1" || { echo "the copies in $1 are not what they have to be"; exit 1; }
}

# Puts the run, which takes $run, beside the words behind the name $1 with nothing to do.
beside() {
    local name=$1
    shift
    peer=$(median true "$@")
    line="$line; $name $(millis "$peer") ms, ratio $(ratio "$run" "$peer")"
}

for place in "$disk" /dev/shm; do
    here=$(mktemp -d "$place/deparohi-XXXXXX")
    there+=("$here")
    cd "$here"
    for n in ${SIZES:-1000 4000}; do
        rm -rf made .ninja_log .ninja_deps && mkdir made
        for what in joined each; do
            written "$n" "$what"
            rm -rf kept out
            ours >/dev/null
            delivered out "$what"
            run=$(median true ours)
            delivered out "$what"
            anew=$(median 'rm -rf out' ours)
            delivered out "$what"
            line="$(kind .), $n jobs, $what delivered: $(millis "$run") ms, into an empty folder $(millis "$anew") ms"
            [ "$what" = joined ] || line="$line, in milliseconds $(goal "$run" 1000 "$((n * 150 / 1000))")"
            rm -rf made && mkdir made && make -s -j4 -f again.mk made/joined && compared made
            beside make make -s -j4 -f again.mk made/joined
            if command -v ninja >/dev/null; then
                rm -rf made && ninja --quiet -j4 -f again.ninja && compared made
                beside ninja ninja --quiet -j4 -f again.ninja
                [ "$what" = each ] || line="$line: $(goal "$run" "$peer" 4)"
            fi
            if command -v cwltool >/dev/null && [ "$n" -le 1000 ]; then
                rm -rf cached cache && cached >/dev/null && delivered cached "$what"
                beside 'cwltool --cachedir' cached
                delivered cached "$what"
            fi
            echo "$line"
        done
    done
done
