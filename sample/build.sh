#!/usr/bin/env bash
# Proves the program hallroute, unless it is newer than its sources, and puts it in target/bin. Standard output has what rt says.
set -euo pipefail
cd "$(dirname "${BASH_SOURCE[0]}")/.."
program=target/bin/hallroute
mkdir -p target/bin
if [ ! -e "$program" ] || [ -n "$(find crates/*/{src,specs,proofs} crates.txt -newer "$program" -print -quit)" ]; then
    # It is run once, on no input, and that run's line is dropped.
    (cd crates/hallroute && rt run </dev/null 2>&1 >/dev/null)
    cp crates/hallroute/out/hallroute "$program"
fi
