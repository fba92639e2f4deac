#!/usr/bin/env bash
# Measures `plan`, `plan_again` and `check` beside a plain maximum flow (dinic.cpp), a careful one (levels.cpp) and, where Boost is
# installed, the one of Boykov and Kolmogorov (boykov.cpp), and prints a table.
#
# usage: bench/plan/run.sh [VERTICES..]      64 256 1024 4096 where none is given
#
# Its rows are generated graphs, and then planning points of simulated runs with one slot, as many planning points from the start
# as there are jobs, or the last one of a run with fewer: of a first run, and of one for which a third of the rows is absent. Below
# them stand all plans of such runs of a scatter, what the level graphs save, and the memory that a line of 20 MB takes.
#
# The programs read the same graph in the same run; where their costs differ, it stops with status 1. Times are
# milliseconds without reading, the least of fifteen runs; memory is the peak of a whole process in MiB, with reading. `again` plans
# where nothing has changed, `changed` from the charges of the planning point before. The ratio is that of `plan` and the careful
# flow, both with the building of their networks. It needs rt, g++, python3 and GNU time. PROGRAM=PATH takes a program that is
# built already.
set -euo pipefail

here=$(cd "$(dirname "$0")" && pwd)
top=$(cd "$here/../.." && pwd)
ours=${PROGRAM:-$top/$("$top/scripts/build" plan_bench)}
work=$(mktemp -d)
trap 'rm -rf "$work"' EXIT

g++ -O2 -std=c++17 "$here/dinic.cpp" -o "$work/dinic"
g++ -O2 -std=c++17 "$here/levels.cpp" -o "$work/levels"
peers="dinic levels"
if echo '#include <boost/graph/boykov_kolmogorov_max_flow.hpp>' | g++ -std=c++17 -E -x c++ - > "$work/headers" 2>&1; then
    g++ -O2 -std=c++17 "$here/boykov.cpp" -o "$work/boykov"
    peers="$peers boykov"
fi

# measure NAME COMMAND..: runs it on the graph, and keeps what it prints and its peak memory
measure() {
    local name=$1
    shift
    /usr/bin/time -f 'peak %M' -o "$work/$name.peak" "$@" < "$work/graph" > "$work/$name.said"
    cat "$work/$name.peak" >> "$work/$name.said"
}

# least NAME COMMAND..: the same fifteen times; the least number behind each word is kept
least() {
    local name=$1
    for _ in $(seq 15); do
        measure "$@"
        cat "$work/$name.said"
    done | awk '!($1 in low) || $2 < low[$1] { low[$1] = $2 } END { for (word in low) print word, low[word] }' > "$work/$name.least"
    mv "$work/$name.least" "$work/$name.said"
}

# value NAME WORD: the number behind a word
value() {
    awk -v word="$2" '$1 == word { print $2 }' "$work/$1.said"
}

row='%-7s %-7s %8s %8s %10s %9s %9s %9s %9s %9s %9s %7s %9s %9s\n'

# compare SHAPE COSTS CHANGED: prints a row of the table, on the graph at hand
compare() {
    least ours "$ours" times
    for peer in $peers; do
        least "$peer" "$work/$peer"
        if [ "$(value ours cost)" != "$(value $peer cost)" ]; then
            echo "costs differ at $*: $(value ours cost), $(value $peer cost)" >&2
            exit 1
        fi
    done
    awk -v row="$row" -v shape="$1" -v costs="$2" -v changed="$3" \
        -v plan="$(value ours plan)" -v again="$(value ours again)" -v check="$(value ours check)" -v dinic="$(value dinic plan)" -v levels="$(value levels plan)" \
        -v boykov="$(case $peers in *boykov) value boykov plan ;; *) echo - ;; esac)" \
        -v ours_peak="$(value ours peak)" -v dinic_peak="$(value dinic peak)" \
        'function to(amount, unit, digits) { return sprintf("%.*f", digits, amount / unit) }
        NF >= 8 { vertices++; entries += $8 }
        END {
            ratio = to(plan, levels > 0 ? levels : 1, 1)
            printf row, shape, costs, vertices + 0, entries + 0, to(plan, 1000, 2), to(again, 1000, 2), changed == "-" ? "-" : to(changed, 1000, 2),
                to(check, 1000, 2), to(dinic, 1000, 2), to(levels, 1000, 2), boykov == "-" ? "-" : to(boykov, 1000, 2), ratio, to(ours_peak, 1024, 1), to(dinic_peak, 1024, 1)
        }' "$work/graph"
}

# generated SHAPE COSTS VERTICES
generated() {
    python3 "$here/generate.py" "$@" > "$work/graph"
    compare "$1" "$2" -
}

# planning_point SHAPE COSTS JOBS: the point of a run of so many jobs that has as many planning points before it
planning_point() {
    python3 "$here/generate.py" "$@" > "$work/jobs"
    "$ours" run "$3" < "$work/jobs" > "$work/graph" 2> "$work/told"
    compare "$1" "$2" "$(awk '$1 == "changed" { print $2 }' "$work/told")"
}

# all_plans COSTS JOBS: prints how long all plans of a run of a scatter take
all_plans() {
    python3 "$here/generate.py" scatter "$@" | "$ours" run | awk -v costs="$1" -v jobs="$2" '
        { took[$1] = $2 }
        END {
            printf "%s run of a scatter of %d jobs: %d planning points; ms for all graphs %.0f, all plans from nothing %.0f, all plans from the charges of the point before %.0f\n",
                costs, jobs, took["points"], took["graphs"] / 1000, took["plan"] / 1000, took["again"] / 1000
        }'
}

# long_line: prints the memory that it takes to refuse a certificate whose third line has 20 MB
long_line() {
    python3 -c 'print("cwl-plan 1\njobs 1\nC 1 - 1 1 1 1 5000000" + " 0 0" * 5_000_000 + "\nend")' > "$work/graph"
    if /usr/bin/time -f 'peak %M' -o "$work/peak" "$ours" < "$work/graph" > /dev/null 2>&1; then
        echo "a line of 20 MB was not refused" >&2
        exit 1
    fi
    awk '$1 == "peak" { printf "a certificate with a line of 20 MB: refused with a peak of %.1f MiB, the text included\n", $2 / 1024 }' "$work/peak"
}

if [ $# -eq 0 ]; then
    set -- 64 256 1024 4096
fi
printf "$row" shape costs vertices entries 'plan ms' 'again ms' 'changed' 'check ms' 'dinic ms' 'levels ms' 'boykov ms' ratio 'plan MiB' 'dinic MiB'
for vertices in "$@"; do
    for shape in chain tree layers scatter; do
        generated "$shape" even "$vertices"
        generated "$shape" decades "$vertices"
    done
    generated stairs - "$vertices"
    for shape in chain layers scatter; do
        planning_point "$shape" first "$vertices"
        planning_point "$shape" third "$vertices"
    done
done
for vertices in "$@"; do
    all_plans first "$vertices"
    all_plans third "$vertices"
done
long_line
