#!/usr/bin/env bash
# Tries run.py and make.py, then holds every router to the conformance cases, and copies of the second reading with a tie
# changed and with the run cut: they must fail, and the rule must be named. With `all`, every wrong reading must, and the
# cases must be those that make.py writes. oracle/build.sh has built what answers.
set -euo pipefail
cd "$(dirname "${BASH_SOURCE[0]}")"
answer=../oracle/target/release/compare
scratch=$(mktemp -d)
trap 'rm -r "$scratch"' EXIT

# The last line of a run, or all of it if a case fails.
hold() {
    python3 run.py "$@" >"$scratch/held" || { cat "$scratch/held"; exit 1; }
    tail -n 1 "$scratch/held"
}

python3 test_run.py --quiet
python3 make/test_make.py --quiet

for router in rust second proved; do
    echo "router $router"
    hold calls "$answer" answer --router "$router"
    hold hallroute "$answer" hallroute --router "$router"
done

if [ "${1:-}" = all ]; then
    python3 make/wrong.py
    python3 make/make.py "$scratch/cases"
    diff -r "$scratch/cases" cases
else
    python3 make/wrong.py tie_by_index run_in_a_byte
fi
