#!/usr/bin/env bash
# A setpoint from the server to a node, by the commands: a key table, a signed token, a forged one refused, the signed one accepted.
#
#     examples/setpoint.sh BIN OUT    BIN: the folder of jws-table and jws-token; OUT: where the files go
#
# Fails where the forged token isn't refused, or the signed one isn't accepted with its payload.
set -euo pipefail
[ $# -eq 2 ] || { echo 'usage: examples/setpoint.sh BIN OUT' >&2; exit 2; }
PATH=$(cd "$1" && pwd):$PATH
mkdir -p "$2"
cd "$2"

fail() { echo "setpoint.sh: $*" >&2; exit 1; }
step() { printf '\n%s\n' "$*"; }
# Shows a command and runs it.
run() { echo "\$ $*"; "$@"; }

step "1. The keys. This secret stands in a public example: make your own of 32 random bytes."
cat >keys.txt <<'KEYS'
id "cellar 2" secret "an example secret, not a real one" algorithms HS256 formats 1
KEYS
run cat keys.txt
run jws-table build keys.txt table.bin
run jws-table show table.bin

step "2. The server signs a setpoint for the node in the cellar."
printf '{"alg":"HS256","kid":"cellar 2"}' >header.json
printf '{"tank":2,"celsius":12.5}' >setpoint.json
run jws-token sign --table table.bin --header header.json --payload setpoint.json --out token.txt
run cat token.txt
echo

step "3. A forged token, another setpoint under the same signature: the node refuses it."
signed=$(cat token.txt)
header=${signed%%.*} signature=${signed##*.}
payload=$(printf '{"tank":2,"celsius":99.5}' | base64 -w 0 | tr '+/' '-_' | tr -d '=')
printf '%s' "$header.$payload.$signature" >forged.txt
rm -f forged.json
status=0
run jws-token verify --table table.bin --payload-out forged.json forged.txt 2>refusal.txt || status=$?
cat refusal.txt
[ "$status" -eq 1 ] || fail "the forged token gave exit status $status, and not 1"
grep -qw 15 refusal.txt || fail 'the forged token is not refused with 15'
[ ! -e forged.json ] || fail 'the forged payload came out'

step "4. The signed token: the node accepts it."
run jws-token members --token token.txt
run jws-token verify --table table.bin --payload-out received.json token.txt || fail 'the signed token is not accepted'
cmp setpoint.json received.json || fail 'the payload that came out is another one'
run cat received.json
echo

step "The forged token is refused and the signed one accepted, as it must be. The files are in $2."
