#!/usr/bin/env bash
# The static library from C: builds examples/host.c, examples/take.c and tests/c/boundary.c against it in a temporary folder, runs the first
# two on the stored files and on bad ones, and the third. Needs gcc, and target/staticlib/libbankplan.a, which `make` builds.
set -euo pipefail
cd "$(dirname "$0")/.."

fail() {
    echo "host: $1" >&2
    exit 1
}

command -v gcc >/dev/null 2>&1 || fail "the command gcc is missing"
[ -f target/staticlib/libbankplan.a ] || fail "target/staticlib/libbankplan.a is missing: run make first"

work=$(mktemp -d)
trap 'rm -rf "$work"' EXIT
for source in examples/host.c examples/take.c tests/c/boundary.c; do
    gcc -std=c11 -O2 -Wall -Wextra -Werror -Iinclude -o "$work/$(basename "$source" .c)" "$source" target/staticlib/libbankplan.a
done

"$work/host" examples/sheet.txt examples/journal.txt >"$work/out" || fail "the example did not end well"
diff examples/expected.txt "$work/out" >&2 || fail "the example prints something else than examples/expected.txt"

# a place left blank is place 0
: >"$work/empty"
sed 's/^\(......\)      /\1     0/' examples/blank.txt >"$work/zeros"
cmp -s examples/blank.txt "$work/zeros" && fail "examples/blank.txt has no blank place"
"$work/host" examples/blank.txt "$work/empty" >"$work/out" || fail "the example did not end well on a sheet with blank places"
"$work/host" "$work/zeros" "$work/empty" | cmp -s - "$work/out" || fail "a blank place is not place 0"

# what is settled at midday has nothing left to settle
tail -n 5 examples/expected.txt >"$work/left"
"$work/host" "$work/left" "$work/empty" >"$work/out" || fail "the example did not end well on the sheet that midday left"
[ "$(grep -c '^midday: finish 25, settling moves 0$' "$work/out")" = 1 ] || fail "the sheet that midday left is not settled"
! grep -q '^batch' "$work/out" || fail "a batch moves on a settled sheet"
tail -n 5 "$work/out" | cmp -s - "$work/left" || fail "a settled sheet changes"

# the same sheet with a calibration: both batches that may leave it go to the other instrument, and line 2 is kept
[ "$(diff examples/sheet.txt examples/calibrated.txt | grep -c '^[<>]')" = 2 ] || fail "examples/calibrated.txt differs in more than line 2"
"$work/host" examples/calibrated.txt "$work/empty" >"$work/out" || fail "the example did not end well on a sheet with calibrations"
head -n 5 "$work/out" >"$work/listing"
printf '%s\n' "    40    40    20     2     2           1" "     2     1     2" "     1     2    30" "     2     1    20" \
    "     3     2    10" | diff - "$work/listing" >&2 || fail "the example plans a sheet with calibrations in another way"
[ "$(grep -c '^midday: finish 40, settling moves 2$' "$work/out")" = 1 ] || fail "the example settles a sheet with calibrations in another way"
[ "$(grep -c '^    20     0$' "$work/out")" = 2 ] || fail "the example loses the calibrations"

# the same sheet with its first batch started: the third goes in its stead, and the mark is kept
[ "$(diff examples/sheet.txt examples/started.txt | grep -c '^[<>]')" = 2 ] || fail "examples/started.txt differs in more than one line"
"$work/host" examples/started.txt "$work/empty" >"$work/out" || fail "the example did not end well on a sheet with a started batch"
head -n 5 "$work/out" | diff examples/started-listing.txt - >&2 || fail "the example plans a sheet with a started batch in another way"
[ "$(grep -c '^midday: finish 50, settling moves 1$' "$work/out")" = 1 ] || fail "the example settles a sheet with a started batch in another way"
[ "$(grep -c '^    30     1     1     2     1     2$' "$work/out")" = 2 ] || fail "the example loses or moves the started batch"

# the worklist says what the sheet says: the same sheet and the same listing; and with a calibration what the calibrated sheet says
cat examples/sheet.txt <(echo) <(head -n 5 examples/expected.txt) >"$work/due"
"$work/take" examples/worklist.csv 0 0 >"$work/out" || fail "the second example did not end well"
diff "$work/due" "$work/out" >&2 || fail "the second example makes another sheet or listing of examples/worklist.csv"
cat examples/calibrated.txt <(echo) "$work/listing" >"$work/due"
"$work/take" examples/worklist.csv 20 0 >"$work/out" || fail "the second example did not end well with a calibration"
diff "$work/due" "$work/out" >&2 || fail "the second example makes another sheet or listing with a calibration"

# refused_by PROGRAM TEXT WORDS..: that example with these words ends with 1, and TEXT is all that it says
refused_by() {
    local program=$1 said=$2 status=0
    shift 2
    "$work/$program" "$@" >"$work/out" 2>"$work/said" || status=$?
    [ "$status" = 1 ] || fail "the example $program on $* ended with $status"
    [ "$(cat "$work/said")" = "$said" ] || fail "the example $program on $* said: $(cat "$work/said")"
}

# refused TEXT WORDS..: the same for the first example
refused() {
    refused_by host "$@"
}

cd "$work"
top=$OLDPWD
sed '4s/20/ 0/' "$top/examples/sheet.txt" >sheet
sed '4s/$/ /' "$top/examples/journal.txt" >journal
refused "host: sheet: line 4: refusal 3, length out of range" sheet "$top/examples/journal.txt"
[ ! -s out ] || fail "the example prints something for a refused sheet"
refused "host: journal: line 4: refusal 19, not of a journal's form" "$top/examples/sheet.txt" journal
sed '3s/^    45/      /' "$top/examples/blank.txt" >sheet
sed '3s/     2$/      /' "$top/examples/journal.txt" >journal
refused "host: sheet: line 3: refusal 1, not of a sheet's form" sheet "$top/examples/journal.txt"
refused "host: journal: line 3: refusal 19, not of a journal's form" "$top/examples/sheet.txt" journal
sed '8s/^     7     4$/     7/' "$top/examples/journal.txt" >journal
refused "host: journal: line 8: refusal 19, not of a journal's form" "$top/examples/sheet.txt" journal
sed '2s/^    20/   241/' "$top/examples/calibrated.txt" >sheet
refused "host: sheet: line 2: refusal 10, calibration out of range" sheet "$top/examples/journal.txt"
[ ! -s out ] || fail "the example prints something for a refused calibration"
sed '3s/^\(............\)     1/\1     2/' "$top/examples/started.txt" >sheet
refused "host: sheet: line 3: refusal 1, not of a sheet's form" sheet "$top/examples/journal.txt"
sed '3s/^    30     1/    30      /' "$top/examples/started.txt" >sheet
refused "host: sheet: line 3: refusal 5, place not in the list, or none for a started batch" sheet "$top/examples/journal.txt"
sed '5s/     1     2$/     2     1/' "$top/examples/sheet.txt" >sheet
refused "host: sheet: line 5: refusal 13, list of qualified instruments does not ascend" sheet "$top/examples/journal.txt"
# sheets of older forms: with lists out of order, without marks, and without line 2 too
awk 'NR > 2 { s = substr($0, 1, 24); for (i = length($0) - 5; i > 24; i -= 6) s = s substr($0, i, 6); $0 = s } { print }' "$top/examples/blank.txt" >unordered
refused "host: unordered: line 3: refusal 13, list of qualified instruments does not ascend" unordered "$top/examples/journal.txt"
sed '3,$s/^\(............\)     0/\1/' "$top/examples/calibrated.txt" >unmarked
refused "host: unmarked: line 3: refusal 1, not of a sheet's form" unmarked "$top/examples/journal.txt"
sed -e '3,$s/^\(............\)     0/\1/' -e 2d "$top/examples/sheet.txt" >uncalibrated
refused "host: uncalibrated: line 2: refusal 1, not of a sheet's form" uncalibrated "$top/examples/journal.txt"
# bring NUMBER FILE: README's command of that number on the file
bring() {
    bash -c "$(sed -n "$1p" bring) $2"
}
# and README's three commands bring them along, one kind each
sed -n 's/^    \(awk .*\) OLD > NEW$/\1/p' "$top/README.md" >bring
[ "$(wc -l <bring)" = 3 ] || fail "README.md has not three commands for sheets of older forms"
# a place left open is then the one listed first, but a started batch gets none
sed -e '3s/^\(......\)      /\1     3/' -e '5s/^\(......\)      /\1     3/' -e '6s/^\(......\)     0/\1     3/' "$top/examples/blank.txt" >ordered
bring 1 unordered | cmp -s - ordered || fail "README.md's command does not put lists in order"
bring 1 ordered | cmp -s - ordered || fail "README.md's command changes a sheet whose lists ascend"
sed '6s/^\(......\)     0     0/\1     0     1/' unordered >begun
bring 1 begun >sheet
refused "host: sheet: line 6: refusal 5, place not in the list, or none for a started batch" sheet "$top/examples/journal.txt"
# and what is not of the form stays so: bytes after the last field, a place that is no number
sed '4s/$/    2/' unordered >sheet
bring 1 sheet >astray
refused "host: astray: line 4: refusal 13, list of qualified instruments does not ascend" astray "$top/examples/journal.txt"
sed '6s/^\(......\)     0/\1    00/' unordered >sheet
bring 1 sheet >astray
refused "host: astray: line 6: refusal 1, not of a sheet's form" astray "$top/examples/journal.txt"
bring 2 unmarked | cmp -s - "$top/examples/calibrated.txt" || fail "README.md's command does not add the marks"
bring 3 uncalibrated | cmp -s - "$top/examples/sheet.txt" || fail "README.md's command does not add line 2 and the marks"
# but a sheet that went through the wrong one, or through one twice, is refused
for name in sheet calibrated blank started; do
    sed '3,$s/^\(............\)....../\1/' "$top/examples/$name.txt" >unmarked
    sed 2d unmarked >uncalibrated
    bring 2 unmarked >marked
    bring 3 uncalibrated >calibrated
    for pair in "3 unmarked" "2 uncalibrated" "2 marked" "3 calibrated"; do
        bring ${pair% *} ${pair#* } >astray
        status=0
        ./host astray "$top/examples/journal.txt" >out 2>said || status=$?
        [ "$status" = 1 ] && [ ! -s out ] && grep -q '^host: astray: line [0-9]*: refusal ' said ||
            fail "README.md's command ${pair% *} makes a sheet of $name.txt, ${pair#* }"
    done
done
refused "host: none: No such file or directory" none journal

# worklists that are not of the form: LF for CRLF, no quotes about a list, a field too few; and of which the sheet would be refused
sed 's/\r$//' "$top/examples/worklist.csv" >unix.csv
cmp -s "$top/examples/worklist.csv" unix.csv && fail "examples/worklist.csv has no CRLF"
refused_by take "take: unix.csv: row 1: not of a worklist's form" unix.csv 0 0
[ ! -s out ] || fail "the second example prints something for a refused worklist"
tr -d '"' <"$top/examples/worklist.csv" >unquoted.csv
refused_by take "take: unquoted.csv: row 1: not of a worklist's form" unquoted.csv 0 0
sed '3s/,"0"//' "$top/examples/worklist.csv" >short.csv
refused_by take "take: short.csv: row 3: not of a worklist's form" short.csv 0 0
sed '2s/20/0/' "$top/examples/worklist.csv" >length.csv
refused_by take "take: length.csv: row 2: refusal 3" length.csv 0 0
sed '3s/"1,2"/"2,1"/' "$top/examples/worklist.csv" >order.csv
refused_by take "take: order.csv: row 3: refusal 13" order.csv 0 0
refused_by take "take: $top/examples/worklist.csv: row 1: refusal 4" "$top/examples/worklist.csv" 0
refused_by take "take: $top/examples/worklist.csv: refusal 10" "$top/examples/worklist.csv" 0 241
refused_by take "take: none.csv: No such file or directory" none.csv 0 0

./boundary || fail "the calls are not as they should be at their edges"
echo "host: the examples' output is as stored, and the calls are as they should be at their edges"
