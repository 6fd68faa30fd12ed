#!/usr/bin/env bash
# Holds the proved library, the proved program and the second reading against the Rust
# of docs/src, in about a minute once library and program are proved.
# The last lines have the counts; any difference makes the status non-zero.
set -euo pipefail
cd "$(dirname "${BASH_SOURCE[0]}")"
bash build.sh

# The list that the program floors replays is what this writes.
mkdir -p target/replay
target/release/compare replay --seed 304 --count 300 --into target/replay
cmp target/replay/stdin ../crates/floors/stdin
cmp target/replay/stdout ../crates/floors/stdout

target/release/compare all --router second --seed 1 --count 200 --routes 5 --changes 5 --threads 2
target/release/compare all --router proved --seed 2 --count 400 --routes 10 --changes 5 --threads 2
