#!/bin/bash
# How long the program takes for workflows of trivial jobs, four at once, beside `make -j4`, and beside `ninja -j4` where that is installed, for the
# same commands: medians of 3, and their ratios. A scatter of N jobs that each write a file, and a chain of N jobs that each copy one. The jobs of the
# chain have a number each: of equal jobs the first would tell what the others give. Its last file is asked for, so that each job is needed.
# Needs bash, python3, make and rt. PROGRAM=PATH takes a program that is built already; SIZES names other numbers of jobs.
set -euo pipefail
top=$(cd "$(dirname "$0")/../.." && pwd)
program=${PROGRAM:-$top/$("$top/scripts/build" 2>/dev/null)}
[ -x "$program" ] || { echo "there is no program: make says why"; exit 1; }
. "$top/bench/run/times.sh"
here=$(mktemp -d)
trap 'rm -rf "$here"' EXIT
cd "$here"

# Writes the documents, the makefiles and the build files of a scatter and of a chain of $1 jobs.
written() {
    python3 - "$1" <<'END'
import json, sys
n = int(sys.argv[1])
write = {"class": "CommandLineTool", "baseCommand": "printf", "stdout": "o", "outputs": {"o": "stdout"}}
write["inputs"] = {"t": {"type": "string", "inputBinding": {}}}
copy = {**write, "baseCommand": "cat", "inputs": {"n": "int", "f": {"type": "File", "inputBinding": {}}}}
scatter = {"e": {"run": write, "in": {"t": "ts"}, "out": ["o"], "scatter": "t"}}
chain = {"s0": {"run": write, "in": {"t": {"default": "x"}}, "out": ["o"]}}
for at in range(1, n):
    chain[f"s{at}"] = {"run": copy, "in": {"n": {"default": at}, "f": f"s{at - 1}/o"}, "out": ["o"]}
last = {"o": {"type": "File", "outputSource": f"s{n - 1}/o"}}
for name, inputs, outputs, steps in (("scatter", {"ts": "string[]"}, {}, scatter), ("chain", {}, last, chain)):
    document = {"cwlVersion": "v1.2", "class": "Workflow", "inputs": inputs, "outputs": outputs, "steps": steps}
    with open(f"{name}.json", "w") as it:
        json.dump(document, it)
with open("scatter.inputs", "w") as it:
    json.dump({"ts": [f"x{at}" for at in range(n)]}, it)
with open("chain.inputs", "w") as it:
    json.dump({}, it)
rules = {"scatter": [(f"o{at}", "", f"printf x{at} > o{at}") for at in range(n)]}
rules["chain"] = [("o0", "", "printf x > o0")] + [(f"o{at}", f"o{at - 1}", f"cat o{at - 1} > o{at}") for at in range(1, n)]
for name, made in rules.items():
    with open(f"{name}.mk", "w") as it:
        print("all:", *(to for to, _, _ in made), file=it)
        for to, of, command in made:
            print(f"{to}: {of}\n\t@{command}", file=it)
    with open(f"{name}.ninja", "w") as it:
        print("rule run\n  command = $c", file=it)
        for to, of, command in made:
            print(f"build {to}: run {of}\n  c = {command}", file=it)
END
}

fresh='rm -rf o* .ninja_log .ninja_deps'
for n in ${SIZES:-100 300}; do
    written "$n"
    for name in scatter chain; do
        ours=$(median "$fresh" "$program" run --slots 4 --outdir out "$name.json" "$name.inputs")
        peer=$(median "$fresh" make -s -j4 -f "$name.mk")
        line="$name of $n: $(millis "$ours") ms; make -j4 $(millis "$peer") ms, ratio $(ratio "$ours" "$peer")"
        if command -v ninja >/dev/null; then
            peer=$(median "$fresh" ninja --quiet -j4 -f "$name.ninja")
            line="$line; ninja -j4 $(millis "$peer") ms, ratio $(ratio "$ours" "$peer")"
        fi
        echo "$line"
    done
done
