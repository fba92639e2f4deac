#!/usr/bin/env bash
# Counts the words of three files side by side, by a scattered step of one job for each file, and adds the three numbers. The second run
# starts nothing: it fetches the sum from the cache that the first one made, and says what that saved.
cd "$(dirname "$0")"
for also in "" --explain; do
  ${DEPAROHI:-deparohi} run $also --slots 3 --cache results/cache --outdir results scatter.json inputs.json
done
