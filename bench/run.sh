#!/usr/bin/env bash
# Proves and builds the library, then times it against the Rust of docs/src; docs/BENCHMARKS.md has what it printed.
set -euo pipefail
cd "$(dirname "${BASH_SOURCE[0]}")"
bash ../oracle/install.sh
bash ../examples/build.sh
cargo --config ../oracle/.cargo/config.toml run --offline --release --quiet
