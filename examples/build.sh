#!/usr/bin/env bash
# Proves the library, unless it is newer than its sources, and puts it with its header in target/hall: lib/libhall.a and include/hall.h.
set -euo pipefail
cd "$(dirname "${BASH_SOURCE[0]}")/.."
library=target/hall/lib/libhall.a
mkdir -p target/hall/lib target/hall/include
if [ ! -e "$library" ] || [ -n "$(find crates/*/{src,specs,proofs} crates.txt -newer "$library" -print -quit)" ]; then
    echo "proving the library hall_c, which takes some minutes where nothing is proved yet" >&2
    (cd crates/hall_c && rt lib) | tail -n 1
    cp crates/hall_c/out/libhall_c.a "$library"
fi
cp include/hall.h target/hall/include/hall.h
