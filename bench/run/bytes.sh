#!/bin/bash
# How often the program itself reads and writes the bytes of files of 200 MB: of one that a tool copies, of one that a tool makes, and of one that the
# first of two steps copies and the second copies again; the last also with a record and an archive, in a first run and in a second one, which starts
# nothing: its steps wait for twice as long as a fetch of the file is taken to last. Counted by the system (rchar and wchar of /proc/PID/io), less what
# the commands that start read and write alone.
# Where strace is there, tables follow: of each path how many times its bytes are read and written by the program, how many copies it makes of it, and
# how many times it is read beside these; and what its children read and write. A file is to be read once for its sum, and once for each copy: what is
# read more often beside its copies than once has a '!'.
# Needs bash, python3 and rt, and 3 GB where temporary files are. PROGRAM=PATH takes a program that is built already; MEGABYTES names another size.
set -euo pipefail
top=$(cd "$(dirname "$0")/../.." && pwd)
program=${PROGRAM:-$top/$("$top/scripts/build" 2>/dev/null)}
[ -x "$program" ] || { echo "there is no program: make says why"; exit 1; }
size=$((${MEGABYTES:-200} * 1000000))
here=$(mktemp -d)
trap 'rm -rf "$here"' EXIT
cd "$here"

head -c "$size" /dev/urandom >given
python3 - "$size" <<'END_OF_PYTHON'
import json, sys
copy = {"cwlVersion": "v1.2", "class": "CommandLineTool", "baseCommand": "cat", "stdout": "made", "outputs": {"o": "stdout"}}
copy["inputs"] = {"f": {"type": "File", "inputBinding": {}}}
make = {**copy, "baseCommand": ["head", "-c", sys.argv[1], "/dev/zero"], "inputs": {}}
# (to fetch costs a millisecond for each 100 kB, and what is quicker to compute is computed)
slow = {**copy, "baseCommand": ["sh", "-c", f"sleep {int(sys.argv[1]) / 50_000_000}; cat \"$0\""]}
steps = {"a": {"run": slow, "in": {"f": "f"}, "out": ["o"]}, "b": {"run": slow, "in": {"f": "a/o"}, "out": ["o"]}}
twice = {"cwlVersion": "v1.2", "class": "Workflow", "inputs": {"f": "File"}, "steps": steps}
twice["outputs"] = {"o": {"type": "File", "outputSource": "b/o"}}
file = {"f": {"class": "File", "location": "given"}}
for name, document, inputs in (("copy", copy, file), ("make", make, {}), ("twice", twice, file)):
    with open(f"{name}.json", "w") as it:
        json.dump(document, it)
    with open(f"{name}.inputs", "w") as it:
        json.dump(inputs, it)
END_OF_PYTHON

# What each run is of, the words that it has more, and what its commands are by themselves.
declare -A what more alone
what[copy]="that a tool copies" more[copy]="" alone[copy]="cat given >made"
what[make]="that a tool makes" more[make]="" alone[make]="head -c $size /dev/zero >made"
what[twice]="that a step copies, and then another" more[twice]="" alone[twice]="cat given >middle; cat middle >made"
what[kept]="the same, with a record and an archive" more[kept]="--record jobs.db --archive files" alone[kept]=${alone[twice]}
what[again]="the same once more, where all is archived" more[again]=${more[kept]} alone[again]=true
declare -A document=([copy]=copy [make]=make [twice]=twice [kept]=twice [again]=twice)

# Makes the folder ready for a run of this name, and runs the words before it and the program.
run_of() {
    local name=$1
    shift
    rm -rf out
    [ "$name" != kept ] || rm -rf files jobs.db*
    # (the words are split on purpose)
    "$@" "$program" run --outdir out ${more[$name]} "${document[$name]}.json" "${document[$name]}.inputs"
}

# The bytes that the words and their children have read and written.
traffic() {
    bash -c '
        counted() { awk "/^rchar/ { r = \$2 } /^wchar/ { w = \$2 } END { print r, w }" /proc/$$/io; }
        before=($(counted))
        "$@" >/dev/null
        after=($(counted))
        echo $((after[0] - before[0])) $((after[1] - before[1]))' traffic "$@"
}
times() { awk -v a="$1" -v b="$size" 'BEGIN { printf "%.2f", a / b }'; }

for name in copy make twice kept again; do
    by_commands=($(traffic sh -c "${alone[$name]}"))
    rm -f made middle
    by_all=($(run_of "$name" traffic))
    [ "$(stat -c %s out/made)" = "$size" ] || { echo "the output has another size"; exit 1; }
    reads=$(times $((by_all[0] - by_commands[0]))) writes=$(times $((by_all[1] - by_commands[1])))
    echo "$((size / 1000000)) MB ${what[$name]}: the program reads $reads times as many bytes, and writes $writes times as many"
done

command -v strace >/dev/null || { echo "strace is not here, so there is no table of paths"; exit 0; }
for name in copy twice kept again; do
    run_of "$name" strace -f -y -s 0 -e trace=read,pread64,write,pwrite64,copy_file_range,sendfile -o trace >/dev/null
    python3 "$top/bench/run/bytes.py" trace "$size" "$here" "${what[$name]}"
done
