#!/bin/bash
# How long the program takes for one trivial tool, from its start to its output object, beside `make` for the same command: medians of 41, each in
# turn, and their ratio. The goal is at most twice as long as make. What a run reads and writes is measured by bytes.sh.
# Needs bash, rt, and for the comparison make. PROGRAM=PATH takes a program that is built already.
set -euo pipefail
top=$(cd "$(dirname "$0")/../.." && pwd)
program=${PROGRAM:-$top/$("$top/scripts/build" 2>/dev/null)}
[ -x "$program" ] || { echo "there is no program: make says why"; exit 1; }
here=$(mktemp -d)
trap 'rm -rf "$here"' EXIT
cd "$here"

cat >hello.json <<'END'
{"cwlVersion":"v1.2","class":"CommandLineTool","baseCommand":"printf","stdout":"out.txt",
 "inputs":{"t":{"type":"string","inputBinding":{"position":1}}},"outputs":{"out":"stdout"}}
END
echo '{"t":"abc"}' >inputs.json
printf 'out/out.txt:\n\t@mkdir -p out && printf abc > out/out.txt\n' >Makefile

ours() { "$program" run --outdir out hello.json inputs.json; }
[[ "$(ours)" = *'"checksum":"sha1$a9993e364706816aba3e25717850c26c9cd0d89d"'* ]] || { echo "another output object"; exit 1; }

# Microseconds that the words after the name take, put behind the others of that name.
declare -A times
measure() {
    local name=$1 start end
    shift
    rm -rf out
    start=$(date +%s%N)
    "$@" >/dev/null
    end=$(date +%s%N)
    times[$name]="${times[$name]-} $(((end - start) / 1000))"
}
median() { tr ' ' '\n' <<<"${times[$1]}" | grep . | sort -n | sed -n 21p; }

for _ in $(seq 41); do
    measure deparohi ours
    measure bare sh -c 'mkdir -p out && printf abc > out/out.txt'
    if command -v make >/dev/null; then measure make make; fi
done
echo "deparohi $(median deparohi) microseconds, a shell with the command alone $(median bare)"
if [ -n "${times[make]-}" ]; then
    awk -v a="$(median deparohi)" -v b="$(median make)" 'BEGIN {
        printf "make     %d microseconds, deparohi takes %.2f of it: the goal, at most 2, is %s\n", b, a / b, a <= 2 * b ? "met" : "MISSED" }'
else
    echo "make is not here"
fi
