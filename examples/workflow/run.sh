#!/usr/bin/env bash
# Counts the different lines of a file, by a workflow of two steps: one sorts them, the other counts what the first one made.
cd "$(dirname "$0")"
${DEPAROHI:-deparohi} run --outdir results count.json inputs.json
