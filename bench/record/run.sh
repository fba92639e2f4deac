#!/bin/bash
# How long a record of 1,000, of 100,000 and of 1,000,000 rows takes to open, to find 1,000 keys that are there and 1,000 that are not, and to
# put 1,000 rows, beside Python's sqlite3 with the same statements, a log (WAL) and a sync for each commit, in one run:
# medians of five, each program once in turn, in microseconds, and the ratios. Of opening also how much longer it takes than the crate `sqlite`
# takes to open the file as a database: at most a tenth is wanted. And of a record whose rows (ARCHIVED, 100,000) are all archived what 1,000 puts take with no budget,
# with one that is never met, and with one that each put meets, so that one archive goes for each; and what 1,000 touches take.
# Needs bash, python3 and rt, and 2 GB where BENCH_FOLDER is (this folder, where it is not given). PROGRAM=PATH takes a program of the crate tests that is
# built already; ROWS names other numbers of rows, also none (ROWS=" ").
set -euo pipefail
here=$(cd "$(dirname "$0")" && pwd)
top=$(cd "$here/../.." && pwd)
program=${PROGRAM:-$top/$("$top/scripts/build" tests 2>/dev/null)}
[ -x "$program" ] || { echo "there is no program: make says why"; exit 1; }
folder=$(mktemp -d -p "${BENCH_FOLDER:-$here}")
trap 'rm -rf "$folder"' EXIT

# Asks for the times of ours.db, which has so many rows, and prints each as a line: ours, what it is of, and its microseconds.
ours() {
    printf '{"row":"ours","call":"measured","file":"ours.db","rows":%d,"times":1000}\n' "$1" |
        (cd "$folder" && "$program") | sed 's/[{"}]//g; s/,/\nours /g; s/:/ /g'
}

# Asks for the times of ours.db, whose rows are archived, under a budget, if any, and prints each as a line: its name, what it is of, and its microseconds.
archives() {
    local budget=${3:+"\"budget\":$3,"}
    printf '{"row":"%s","call":"measured_archives",%s"file":"ours.db","rows":%d,"times":1000}\n' "$1" "$budget" "$2" |
        (cd "$folder" && "$program") | sed "s/[{\"}]//g; s/,/\n$1 /g; s/:/ /g"
}

for rows in ${ROWS:-1000 100000 1000000}; do
    python3 "$here/beside.py" make "$folder/$rows.db" "$rows"
    for _ in 1 2 3 4 5; do
        cp "$folder/$rows.db" "$folder/ours.db"
        ours "$rows" || { echo "the program has no times for $rows rows" >&2; exit 1; }
        rm -f "$folder"/ours.db*
        cp "$folder/$rows.db" "$folder/theirs.db"
        python3 "$here/beside.py" run "$folder/theirs.db" "$rows" 1000 | sed 's/^/theirs /'
        rm -f "$folder"/theirs.db*
    done >"$folder/$rows.times"
    rm "$folder/$rows.db"
    python3 "$here/beside.py" tell "$folder/$rows.times" "$rows"
done

rows=${ARCHIVED:-100000}
python3 "$here/beside.py" archived "$folder/$rows.db" "$rows"
for _ in 1 2 3 4 5; do
    for budget in none: wide:$((2000 * rows)) full:$((1000 * rows)); do
        cp "$folder/$rows.db" "$folder/ours.db"
        archives "${budget%%:*}" "$rows" "${budget#*:}" || { echo "the program has no times for archived rows" >&2; exit 1; }
        rm -f "$folder"/ours.db*
    done
done >"$folder/$rows.times"
python3 "$here/beside.py" budget "$folder/$rows.times" "$rows"
