#!/usr/bin/env bash
# Builds hallview and runs it: bash view/run.sh sample/parcels.txt
set -euo pipefail
folder=$(dirname "${BASH_SOURCE[0]}")
bash "$folder/build.sh"
exec "$folder/../target/view/debug/hallview" "$@"
