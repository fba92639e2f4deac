#!/bin/bash
# How long `sum_of` takes on a file of 256 MB beside `sha1sum`, `openssl dgst -sha1` and the hasher alone, in one run:
# medians of five, each program once in turn, and the ratios. The last line says whether 64 MB of address space are enough.
set -euo pipefail
top=$(cd "$(dirname "$0")/../.." && pwd)
size=$((256 * 1024 * 1024))
program=$("$top/scripts/build" sum_bench)
program=$top/$program
file=$(mktemp)
trap 'rm -f "$file"' EXIT
head -c "$size" /dev/urandom >"$file"

[ "$("$program" sum "$file")" = "$(sha1sum "$file" | cut -d' ' -f1) $size" ] || { echo "the sums differ"; exit 1; }

# Milliseconds that the words after the name take, put behind the others of that name.
declare -A times
measure() {
    local name=$1 start end
    shift
    start=$(date +%s%N)
    "$@" >/dev/null
    end=$(date +%s%N)
    times[$name]="${times[$name]-} $(((end - start) / 1000000))"
}
median() { tr ' ' '\n' <<<"${times[$1]}" | grep . | sort -n | sed -n 3p; }

for _ in 1 2 3 4 5; do
    measure sum_of "$program" sum "$file"
    measure hasher "$program" digest "$size"
    measure reading dd if="$file" of=/dev/null bs=64K status=none
    measure sha1sum sha1sum "$file"
    if command -v openssl >/dev/null; then measure openssl openssl dgst -sha1 "$file"; fi
done

ours=$(median sum_of)
echo "sum_of   $ours ms"
for name in hasher reading sha1sum openssl; do
    [ -n "${times[$name]-}" ] || { echo "$name   is not here"; continue; }
    theirs=$(median "$name")
    printf '%-8s %s ms, sum_of takes %s.%02d of it\n' "$name" "$theirs" $((ours / theirs)) $((ours * 100 / theirs % 100))
done

both=$(($(median hasher) + $(median reading)))
printf 'hasher and reading %s ms, sum_of takes %s.%02d of it\n' "$both" $((ours / both)) $((ours * 100 / both % 100))

if (ulimit -v 65536 && "$program" sum "$file" >/dev/null); then
    echo "memory   64 MB are enough"
else
    echo "memory   64 MB are not enough"
fi
