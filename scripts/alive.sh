#!/usr/bin/env bash
# Every edit in tests/edits still fits: the text of each `old:` stands exactly once in its file.
set -euo pipefail
cd "$(dirname "$0")/.."
bad=0
count=0
for edit in tests/edits/*/*.edit; do
    count=$((count + 1))
    crate=crates/$(basename "$(dirname "$edit")")
    file=
    while IFS= read -r line; do
        case $line in
            "file: "*) file=$crate/${line#file: } ;;
            "old: "*)
                found=0
                [ ! -f "$file" ] || found=$(grep -oF -- "${line#old: }" "$file" | wc -l || true)
                if [ "$found" != 1 ]; then
                    echo "$edit: its old text stands $found times in $file" >&2
                    bad=1
                fi
                ;;
        esac
    done <"$edit"
done
[ "$count" -gt 0 ] || { echo "tests/edits has no edit" >&2; exit 1; }
[ "$bad" = 0 ] && echo "tests/edits: $count edits, all fit"
exit "$bad"
