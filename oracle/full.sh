#!/usr/bin/env bash
# The whole comparison; docs/COMPARISON.md reports what it prints.
# The number of threads may be given, 1 or 2.
set -euo pipefail
cd "$(dirname "${BASH_SOURCE[0]}")"
bash build.sh
threads=${1:-1}

compare() {
    echo "compare $*"
    target/release/compare "$@" --threads "$threads"
}

compare floors
compare halls --seed 101 --count 16000 --routes 8 --changes 8
compare lent --seed 102 --count 4000 --routes 8 --changes 8
compare plans --seed 103 --count 2000000
compare damaged --seed 104 --count 10000
compare selfcheck

compare floors --router proved
compare halls --router proved --seed 201 --count 24000 --routes 25 --changes 8
compare lent --router proved --seed 202 --count 8000 --routes 25 --changes 8
compare halls --router proved --seed 207 --count 60000 --sectors 26 --routes 25 --changes 4
compare lent --router proved --seed 208 --count 20000 --sectors 26 --routes 25 --changes 4
compare plans --router proved --seed 203 --count 2000000
compare damaged --router proved --seed 204 --count 20000
compare bytes --router proved --seed 205 --count 100000
compare files --router proved --seed 209 --count 200000
compare written --router proved --seed 210 --count 200000
compare program --router proved --seed 206 --count 10000
compare selfcheck --router proved
echo "full comparison: 0 differences"
