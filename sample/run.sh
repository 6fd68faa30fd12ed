#!/usr/bin/env bash
# Routes the sample halls with the proved program: each file is a hall and pairs of source and goal, each line printed is a card.
# Standard error has what is being done.
set -euo pipefail
cd "$(dirname "$0")/.."

said=$(mktemp)
trap 'rm -f "$said"' EXIT
echo "sample/run.sh: proving the program hallroute, crate by crate; about three minutes on two cores, the first time" >&2
# A line for each crate; all that rt says only where a proof fails.
if ! bash sample/build.sh | tee "$said" | sed -un 's/^rt: /  /p' >&2; then
    cat "$said" >&2
    exit 1
fi

echo "sample/run.sh: routing the halls of sample/" >&2
echo "source goal steps leg run, then each step: sector column,row:cell and its window, side first-last cell, or - at the goal"
for hall in sample/*.hall; do
    echo "$hall"
    target/bin/hallroute <"$hall" | sed 's/^/  /'
done
