#!/usr/bin/env bash
# More wrong answers, which the prover must refuse as it does those in crates/NAME/must-fail: tests/edits/NAME/*.edit. They are not
# part of the test command, since each proves its crate again, which may take half a minute or more.
# usage: scripts/edits.sh [NAME..]     those of the crates NAME, or all; it fails where an edit is not refused, not tried, or bad
set -euo pipefail
cd "$(dirname "$0")/.."
work=$(mktemp -d)
trap 'rm -rf "$work"' EXIT
tar -cf - --exclude='crates/*/out' --exclude='crates/*/must-fail' crates crates.txt | tar -xf - -C "$work"
[ ! -e HANDLES ] || cp HANDLES "$work"
for folder in tests/edits/*/; do
    mkdir -p "$work/crates/$(basename "$folder")/must-fail"
    cp "$folder"*.edit "$work/crates/$(basename "$folder")/must-fail/"
done
cd "$work"
rt must-fail "$@"
