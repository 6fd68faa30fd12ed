#!/usr/bin/env bash
# Tries run.sh and what the program says of an output or an input that is lost.
set -euo pipefail
cd "$(dirname "$0")/.."
room=$(mktemp -d)
trap 'rm -rf "$room"' EXIT

fail() {
    echo "sample/check.sh: $*" >&2
    exit 1
}

# What went to the two outputs of the last program, and what is owed there.
same() { # WHAT OUTPUT ERRORS
    [ "$(cat "$room/out")" = "$2" ] || fail "$1: standard output has '$(cat "$room/out")'"
    [ "$(cat "$room/err")" = "$3" ] || fail "$1: standard error has '$(cat "$room/err")'"
}

# ---- run.sh
bash sample/run.sh >"$room/out" 2>"$room/err" || fail "run.sh failed: $(cat "$room/err")"
halls=(sample/*.hall)
[ "$(grep -c '^sample/.*\.hall$' "$room/out")" -eq "${#halls[@]}" ] || fail "run.sh does not name each hall"
head -n 1 "$room/out" | grep -q '^source goal steps leg run' || fail "run.sh does not say what the columns are"
grep -q '^  0 100 2 13 5 0,0:49E9-99 1,0:0-$' "$room/out" || fail "run.sh does not print the card of document 01"

# A proof that fails, by an rt in its place: run.sh had said what it does, says what rt said, and has a status.
mkdir "$room/bin"
printf '#!/bin/sh\n{ echo "rt: laws proved (5 s)"; echo "why not"; } >&2\nexit 1\n' >"$room/bin/rt"
chmod +x "$room/bin/rt"
# Older than its sources, so that it is proved anew.
touch -d @0 target/bin/hallroute
if PATH="$room/bin:$PATH" bash sample/run.sh >"$room/out" 2>"$room/err"; then
    fail "run.sh goes on where the proof fails"
fi
touch target/bin/hallroute
sed -i 1s/,.*// "$room/err"
same "a proof that fails" "" "sample/run.sh: proving the program hallroute
  laws proved (5 s)
rt: laws proved (5 s)
why not"

# ---- the program
program=target/bin/hallroute
hall=sample/two_sectors.hall
no_output="hallroute: standard output cannot be written"
no_input="hallroute: standard input cannot be read"
: >"$room/out"

"$program" <"$hall" >"$room/out" 2>"$room/err"
same "a hall" "0 100 2 13 5 0,0:49E9-99 1,0:0-" ""

# Said once, however many lines there are, for each kind of line.
: >"$room/out"
{ cat "$hall" && printf '\0\0\144\0\0\0\144\0\0'; } >"$room/pairs"
printf '\2\1\0\0\0' >"$room/refused"
head -c 65537 /dev/zero >"$room/long"
for input in "$hall" "$room/pairs" "$room/refused" "$room/long"; do
    "$program" <"$input" >/dev/full 2>"$room/err"
    same "a full output" "" "$no_output"
    "$program" <"$input" >&- 2>"$room/err"
    same "a closed output" "" "$no_output"
done

"$program" <sample >"$room/out" 2>"$room/err"
same "an input that is a folder" "" "$no_input"
"$program" <&- >"$room/out" 2>"$room/err"
same "a closed input" "" "$no_input"
# A connection that breaks behind the hall: what came before that is not taken for the whole input.
python3 - "$program" "$hall" >"$room/out" 2>"$room/err" <<'END'
import socket, struct, subprocess, sys
listening = socket.create_server(("127.0.0.1", 0))
read_end = socket.create_connection(listening.getsockname())
write_end, _ = listening.accept()
program = subprocess.Popen([sys.argv[1]], stdin=read_end)
write_end.sendall(open(sys.argv[2], "rb").read())
# closed without waiting, so that the other end is reset
write_end.setsockopt(socket.SOL_SOCKET, socket.SO_LINGER, struct.pack("ii", 1, 0))
write_end.close()
sys.exit(program.wait())
END
same "an input that breaks off" "" "$no_input"
# An empty file is none of these: it is read, and refused.
"$program" </dev/null >"$room/out" 2>"$room/err"
same "an empty file" "hall refused 10" ""
echo "sample: as owed"
