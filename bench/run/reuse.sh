#!/bin/bash
# What a run saves that has a record and an archive: N jobs that each copy a file of 1 kB, four at once, and one that joins what they made.
# - The first run beside one without record and archive.
# - A second one with nothing changed beside `make` with nothing to do, `ninja` where that is installed, and cwltool's `--cachedir` where that is.
# - How many commands a run starts where nothing was changed, and where one file of the N was; its joined file is compared. To fetch a copy costs 2 and to
#   make it what it took in milliseconds: those that took 1 are made again.
# Times are medians of 3, or of TIMES, and their ratios: of files on a disk, or in memory with TMPDIR=/dev/shm. Needs bash, python3, make and rt. PROGRAM=PATH takes a program that is built already; SIZES
# names other numbers of jobs.
set -euo pipefail
top=$(cd "$(dirname "$0")/../.." && pwd)
program=${PROGRAM:-$top/$("$top/scripts/build" 2>/dev/null)}
[ -x "$program" ] || { echo "there is no program: make says why"; exit 1; }
. "$top/bench/run/times.sh"
here=$(mktemp -d)
trap 'rm -rf "$here"' EXIT
cd "$here"

# Writes $1 files, and the document, the makefile and the build file that copy and join them.
written() {
    rm -rf given && mkdir given
    python3 - "$1" <<'END_OF_PYTHON'
import json, sys
n = int(sys.argv[1])
for at in range(n):
    with open(f"given/{at}", "w") as it:
        it.write(f"{at:09}\n" * 100)
copy = {"class": "CommandLineTool", "baseCommand": "cat", "stdout": "o", "outputs": {"o": "stdout"}}
copy["inputs"] = {"f": {"type": "File", "inputBinding": {}}}
join = {**copy, "stdout": "joined", "inputs": {"f": {"type": "File[]", "inputBinding": {}}}}
steps = {"copy": {"run": copy, "in": {"f": "files"}, "out": ["o"], "scatter": "f"}, "join": {"run": join, "in": {"f": "copy/o"}, "out": ["o"]}}
document = {"cwlVersion": "v1.2", "class": "Workflow", "requirements": {"ScatterFeatureRequirement": {}}, "inputs": {"files": "File[]"}}
document.update(outputs={"joined": {"type": "File", "outputSource": "join/o"}}, steps=steps)
with open("reuse.json", "w") as it:
    json.dump(document, it)
with open("reuse.inputs", "w") as it:
    json.dump({"files": [{"class": "File", "location": f"given/{at}"} for at in range(n)]}, it)
made = [(f"made/{at}", f"given/{at}") for at in range(n)]
everything = " ".join(to for to, _ in made)
with open("reuse.mk", "w") as it:
    print(f"made/joined: {everything}\n\t@cat $^ >$@", file=it)
    for to, of in made:
        print(f"{to}: {of}\n\t@cat $< >$@", file=it)
with open("reuse.ninja", "w") as it:
    print("rule copy\n  command = cat $in >$out", file=it)
    print(f"build made/joined: copy {everything}", file=it)
    for to, of in made:
        print(f"build {to}: copy {of}", file=it)
END_OF_PYTHON
}

plain() { "$program" run --slots 4 --outdir out "$@" reuse.json reuse.inputs; }
kept() { plain --record jobs.db --archive files "$@"; }
cached() { cwltool --quiet --parallel --cachedir cache --outdir out reuse.json reuse.inputs 2>/dev/null; }

# That what was joined is what it has to be of the files as they are.
compared() {
    for at in $(seq 0 $((n - 1))); do cat "given/$at"; done | cmp - "$1" || { echo "$1 is not what it has to be"; exit 1; }
}

# How many commands a run with record and archive starts.
started() {
    rm -rf out
    kept --verbose 2>told >/dev/null || { cat told >&2; exit 1; }
    compared out/joined
    grep -c '^start ' told || true
}

# Of how many copies the record says that they took a millisecond at most.
quick() { "$program" record jobs.db | awk '$2 == 1 && $3 == 1000 { n++ } END { print n + 0 }'; }

for n in ${SIZES:-1000}; do
    written "$n"
    echo "$n jobs on files of 1 kB, and one that joins what they made"
    bare=$(median 'rm -rf out' plain)
    compared out/joined
    first=$(median 'rm -rf out files jobs.db*' kept)
    compared out/joined
    echo "first run: $(millis "$bare") ms; with record and archive $(millis "$first") ms, ratio $(ratio "$first" "$bare"): $(goal "$first" "$bare" 1.3)"

    again=$(median 'rm -rf out' kept)
    compared out/joined
    mkdir -p made && make -s -j4 -f reuse.mk && compared made/joined
    peer=$(median true make -s -j4 -f reuse.mk)
    echo "nothing changed: $(millis "$again") ms; make $(millis "$peer") ms, ratio $(ratio "$again" "$peer")"
    if command -v ninja >/dev/null; then
        rm -rf made && ninja --quiet -j4 -f reuse.ninja && compared made/joined
        peer=$(median true ninja --quiet -j4 -f reuse.ninja)
        echo "    ninja $(millis "$peer") ms, ratio $(ratio "$again" "$peer"): $(goal "$again" "$peer" 5)"
    fi
    if command -v cwltool >/dev/null; then
        rm -rf out cache && cached >/dev/null && compared out/joined
        peer=$(median 'rm -rf out' cached)
        compared out/joined
        echo "    cwltool --cachedir $(millis "$peer") ms, ratio $(ratio "$again" "$peer")"
    fi

    nothing=$(started)
    quick=$(quick)
    printf 'changed\n' >>"given/$((n / 2))"
    one=$(started)
    echo "commands that start: $nothing where nothing was changed, $one where one file of $n was: of its job, of the one that joins, and those of $quick that took 1 ms"
    # (the changed file's job may be one of these)
    [ "$nothing" = 0 ] && [ "$one" -ge $((quick + 1)) ] && [ "$one" -ge 2 ] && [ "$one" -le $((quick + 2)) ] || { echo "0 and 2 and those have to start"; exit 1; }
done
