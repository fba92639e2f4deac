#!/usr/bin/env bash
# Looks at a document before it is run: what its inputs are, an input object to be filled in, and the command that it comes to for inputs that are on standard
# input. Then runs it so, with as many jobs side by side as there are processors, and once more with a line of JSON as each job starts and ends.
cd "$(dirname "$0")"
inputs='{"who": {"class": "File", "location": "greet.json"}}'
${DEPAROHI:-deparohi} run --validate greet.json
${DEPAROHI:-deparohi} run --template greet.json
${DEPAROHI:-deparohi} run --print-command greet.json - <<<"$inputs"
${DEPAROHI:-deparohi} run --parallel --outdir results greet.json - <<<"$inputs" >results.json && ${DEPAROHI:-deparohi} run --slots all --outdir results greet.json - <<<"$inputs" | cmp - results.json && echo the same
${DEPAROHI:-deparohi} run --progress=json --outdir results greet.json - <<<"$inputs" 2>&1 >results.json | grep '^{' | sed 's/"milliseconds":[0-9]*/"milliseconds":MILLIS/'
