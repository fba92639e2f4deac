#!/usr/bin/env bash
# Sorts the lines of a file, each once, by a tool.
cd "$(dirname "$0")"
${DEPAROHI:-deparohi} run --outdir results unique.json inputs.json
