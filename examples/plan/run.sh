#!/usr/bin/env bash
# Says what a run of the two steps of `workflow` would do: before anything is kept it would compute the first job, which is all that is known by then; after a
# run with a cache it would load what the last job gave, and needs no other. What each plan costs is on standard output, as `check` reads it off the certificate.
cd "$(dirname "$0")"
mkdir -p results
words="--cache results/cache --outdir results ../workflow/count.json ../workflow/inputs.json"
${DEPAROHI:-deparohi} plan $words | ${DEPAROHI:-deparohi} check -
${DEPAROHI:-deparohi} run $words > results/output.json
${DEPAROHI:-deparohi} plan $words | ${DEPAROHI:-deparohi} check -
