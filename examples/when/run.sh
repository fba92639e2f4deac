#!/usr/bin/env bash
# Runs a step only where an input says so, and takes the first result that there is: once with the step, and once without it.
cd "$(dirname "$0")"
${DEPAROHI:-deparohi} run --outdir loud greet.json loud.json
${DEPAROHI:-deparohi} run --outdir quiet greet.json quiet.json
