#!/usr/bin/env bash
# Looks for a word in two files. grep ends with 1 where it finds none, which no list of the tool calls a success: the run fails for good.
cd "$(dirname "$0")"
${DEPAROHI:-deparohi} run --explain --outdir results find.json inputs.json
