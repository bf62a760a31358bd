#!/usr/bin/env bash
# Every `file:name` of docs/DEMANDS.md is declared in that file: in Rattle as a function, constant or struct, in antt by its signature.
# Every edit that it names is there.
set -euo pipefail
cd "$(dirname "$0")/.."
bad=0
count=0
while IFS=: read -r file name; do
    count=$((count + 1))
    if [ ! -f "$file" ]; then
        echo "docs/DEMANDS.md names $file, which is not there" >&2
        bad=1
        continue
    fi
    case $file in
        *.rt) pattern="(fn $name\\(|const $name:|struct $name \\{)" ;;
        *) pattern="^ *((unfoldable|abbrev|pub) )*(data |record )?$name( \\{[^}]*\\})?( :| \\()" ;;
    esac
    if ! grep -qE -- "$pattern" "$file"; then
        echo "docs/DEMANDS.md names $file:$name, which is not declared there" >&2
        bad=1
    fi
done < <(grep -oE '`crates/[^`]+:[^`]+`' docs/DEMANDS.md | tr -d '`')
while read -r file; do
    [ -f "$file" ] || { echo "docs/DEMANDS.md names $file, which is not there" >&2; bad=1; }
done < <(grep -oE '`(crates|tests/edits)/[^`:]+\.edit`' docs/DEMANDS.md | tr -d '`')
[ "$count" -gt 0 ] || { echo "docs/DEMANDS.md names nothing" >&2; exit 1; }
[ "$bad" = 0 ] && echo "docs/DEMANDS.md: $count names, all there"
exit "$bad"
