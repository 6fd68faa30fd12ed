#!/usr/bin/env bash
# Builds hallview, over the proved library.
set -euo pipefail
cd "$(dirname "${BASH_SOURCE[0]}")/.."
bash examples/build.sh >&2
cargo build --offline --quiet --manifest-path view/Cargo.toml --target-dir target/view
