#!/usr/bin/env bash
# Checks two certificates. The first plan loads a job for 3 and computes two for 5 each; the second computes the first job for 10
# in place of loading it, so its charges, which come to 13, no longer match what it costs.
cd "$(dirname "$0")"
${DEPAROHI:-deparohi} check cheapest.plan
${DEPAROHI:-deparohi} check dearer.plan
