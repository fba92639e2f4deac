#!/usr/bin/env bash
# Keeps in a record what a tool gave. The tool reads a file that is none of its inputs; once that has changed, a second run with the same
# record sees that the tool gives something else, and says so.
cd "$(dirname "$0")"
mkdir -p results
echo one > results/hidden.txt
${DEPAROHI:-deparohi} run --record results/jobs.db --outdir results read.json
echo two > results/hidden.txt
${DEPAROHI:-deparohi} run --record results/jobs.db --outdir results read.json
