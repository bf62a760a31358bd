#!/usr/bin/env bash
# Every test of this repository: documents, proofs, layout, must-fail edits, programs, a host in C, and the Rust tests.
# It stops at the first failure. Its last line is that of `rt ci`: 'N passed, 0 failed'.
set -euo pipefail
cd "$(dirname "$0")/.."

missing() {
    echo "missing: $1" >&2
    exit 1
}

# Debian's package $2 for the command $1, where we may install it
need() {
    command -v "$1" >/dev/null 2>&1 && return 0
    if [ "$(id -u)" = 0 ] && command -v apt-get >/dev/null 2>&1; then
        echo "the command $1 is missing: installing Debian's package $2"
        apt-get update -qq && apt-get install -y -qq "$2" >/dev/null || true
    fi
    command -v "$1" >/dev/null 2>&1 || missing "the command $1 (Debian's package $2)"
}

command -v rt >/dev/null 2>&1 || missing "the Rattle kit: its command rt is not on the PATH"
need cargo cargo
need rustc rustc
need gcc gcc

echo "== documents, and edits outside this command"
bash scripts/demands.sh
bash scripts/alive.sh

log=$(mktemp)
rust=$(mktemp)
trap 'kill "$beside" 2>/dev/null || true; rm -f "$log" "$rust"' EXIT
# The proofs come first where both want a processor.
(cd tests && nice cargo test --offline --quiet -p second) >"$rust" 2>&1 &
beside=$!

echo "== proofs, layout, must-fail edits and programs; beside them the second planner's own tests"
rt ci 2>&1 | tee "$log"
verdict=$(tail -n 1 "$log")
[[ $verdict =~ ^[1-9][0-9]*\ passed,\ 0\ failed$ ]] || missing "rt ci's verdict; its last line was: $verdict"
# an edit that could not be tried shows nothing, though `rt ci` passes it
ok=$(grep '^rt: ok' "$log") || missing "rt ci's line 'rt: ok'"
[[ ! $ok =~ ,\ [0-9]+\ bad ]] || missing "must-fail edits that can be tried: $ok"

echo "== the second planner's own tests"
status=0
wait "$beside" || status=$?
cat "$rust"
[ "$status" = 0 ] || exit 1

echo "== the static library; the programs are those that rt ci built and ran"
bash scripts/build.sh host
mkdir -p target/bin
for name in bankplan bankrun bankwrite banktake; do
    cp -f "crates/$name/out/$name" "target/bin/$name"
done

echo "== a host in C, and the planner against the second one in Rust"
bash scripts/host.sh
(cd tests && cargo test --offline --quiet -p host)

echo "$verdict"
