#!/usr/bin/env bash
# Builds libhall.a, and with it the example in C and the one in Rust: both must print expected.txt. Holds the header to
# C99 and C++11, runs the programs in C and C++ under the sanitizers, and runs the tests of the Rust package, also of a
# copy of it elsewhere. What the machine lacks it installs.
set -euo pipefail
cd "$(dirname "${BASH_SOURCE[0]}")"

if ! { command -v cc && command -v g++ && command -v python3; } >/dev/null; then
    export DEBIAN_FRONTEND=noninteractive
    apt-get update -qq
    apt-get install -y -qq --no-install-recommends gcc g++ libc6-dev python3 >/dev/null
fi

bash build.sh
hall=../target/hall
into=../target/examples
mkdir -p "$into"

# What the header says of the library: it calls nothing else, and has no state of its own.
names=$(nm --format=posix "$hall/lib/libhall.a" | awk '$2 ~ /[UBbCDd]/ { print $1 }')
if grep -vxE 'memcpy|memmove|memset' <<<"$names"; then
    echo "libhall.a calls or keeps what hall.h does not name" >&2
    exit 1
fi

warnings=(-Wall -Wextra -Werror -pedantic -Wconversion)
sanitizers=(-fsanitize=address,undefined -fno-sanitize-recover=all)
c() { cc -std=c99 "${warnings[@]}" -I "$hall/include" "$@" -L "$hall/lib" -lhall; }
cpp() { g++ -std=c++11 "${warnings[@]}" -I "$hall/include" "$@" -L "$hall/lib" -lhall; }

# Each program once as it is, once with the sanitizers on the caller's side.
# shellcheck disable=SC2086
for checks in "" "${sanitizers[*]}"; do
    cpp $checks c/header.cpp -o "$into/header"
    cpp $checks -x c++ c/empty.c -x none -o "$into/empty_cpp"
    c $checks c/empty.c -o "$into/empty"
    c $checks c/numbers.c -o "$into/numbers"
    c $checks c/route.c -o "$into/route"
    for program in header empty_cpp empty; do "$into/$program"; done
    "$into/numbers" >"$into/numbers.txt"
    "$into/route" | diff expected.txt -
done
python3 numbers.py <"$into/numbers.txt"
echo "C and C++: as expected"

cargo() { command cargo "$1" --offline --quiet --target-dir "$into/rust" "${@:2}"; }
package=(--manifest-path rust/Cargo.toml)
cargo test "${package[@]}"
cargo run "${package[@]}" --example route | diff expected.txt -
cargo run "${package[@]}" --example numbers | diff "$into/numbers.txt" -
# The package needs nothing of this repository but the library.
copy=$(mktemp -d)
trap 'rm -rf "$copy"' EXIT
cp -r rust/. "$copy"
HALL_LIB=$(realpath "$hall/lib") cargo test --manifest-path "$copy/Cargo.toml"
echo "Rust: as expected"
