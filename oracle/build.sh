#!/usr/bin/env bash
# Proves the library and the program, builds the comparison and tests what it rests on.
set -euo pipefail
cd "$(dirname "${BASH_SOURCE[0]}")"
bash install.sh
bash ../examples/build.sh
bash ../sample/build.sh | tail -n 1
export CARGO_TARGET_DIR="$PWD/target"

cargo build --offline --release --quiet
cargo test --offline --release --quiet --package petgraph_standin --test first_path
cargo test --offline --release --quiet --manifest-path second/Cargo.toml --tests
