#!/usr/bin/env bash
# Proves and builds the library, then counts the instructions that a call of it takes, row by row, with callgrind: these repeat from run to run.
set -euo pipefail
cd "$(dirname "${BASH_SOURCE[0]}")"
if ! command -v valgrind >/dev/null; then
    apt-get update -qq && DEBIAN_FRONTEND=noninteractive apt-get install -y -qq valgrind >/dev/null
fi
bash ../oracle/install.sh
bash ../examples/build.sh
cargo --config ../oracle/.cargo/config.toml build --offline --release --quiet
scratch=$(mktemp -d)
trap 'rm -r "$scratch"' EXIT
echo "| case | instructions a call |"
echo "|---|---|"
target/release/bench rows | while read -r number calls call name; do
    valgrind --tool=callgrind --callgrind-out-file="$scratch/out" --toggle-collect="$call" target/release/bench row "$number" 2>"$scratch/log"
    total=$(sed -n 's/^totals: //p' "$scratch/out")
    printf '| %s | %d |\n' "$name" "$((total / calls))"
done
