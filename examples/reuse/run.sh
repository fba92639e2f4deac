#!/usr/bin/env bash
# Counts the words of three files, each in a tenth of a second, adds the numbers, and does so again after one of the files has changed. With the same cache
# the second run starts only the jobs behind that file: what the other jobs gave is fetched, which costs less than to count anew. Each run is
# followed by the jobs that it started.
cd "$(dirname "$0")"
mkdir -p results
for first in "a word" "a few more words"; do
  echo "$first" > results/one.txt
  ${DEPAROHI:-deparohi} run --verbose --cache results/cache --outdir results scatter.json inputs.json 2> results/told
  grep -o '^start "[^"]*"' results/told
done
